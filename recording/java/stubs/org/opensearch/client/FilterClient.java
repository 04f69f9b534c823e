// A stub: what RecordingClient and the examples need of OpenSearch's class of this name, and no more.
package org.opensearch.client;

import org.opensearch.action.ActionRequest;
import org.opensearch.action.ActionType;
import org.opensearch.core.action.ActionListener;
import org.opensearch.core.action.ActionResponse;

public abstract class FilterClient implements Client {
    protected final Client in;

    public FilterClient(Client in) {
        this.in = in;
    }

    @Override
    public final <Request extends ActionRequest, Response extends ActionResponse> void execute(
        ActionType<Response> action,
        Request request,
        ActionListener<Response> listener
    ) {
        doExecute(action, request, listener);
    }

    protected <Request extends ActionRequest, Response extends ActionResponse> void doExecute(
        ActionType<Response> action,
        Request request,
        ActionListener<Response> listener
    ) {
        in.execute(action, request, listener);
    }
}
