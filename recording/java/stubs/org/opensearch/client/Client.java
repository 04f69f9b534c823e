// A stub: what RecordingClient and the examples need of OpenSearch's class of this name, and no more.
package org.opensearch.client;

import org.opensearch.action.ActionRequest;
import org.opensearch.action.ActionType;
import org.opensearch.action.get.GetAction;
import org.opensearch.action.get.GetRequest;
import org.opensearch.action.get.GetResponse;
import org.opensearch.action.index.IndexAction;
import org.opensearch.action.index.IndexRequest;
import org.opensearch.action.index.IndexResponse;
import org.opensearch.core.action.ActionListener;
import org.opensearch.core.action.ActionResponse;

public interface Client {
    <Request extends ActionRequest, Response extends ActionResponse> void execute(
        ActionType<Response> action,
        Request request,
        ActionListener<Response> listener
    );

    default void index(IndexRequest request, ActionListener<IndexResponse> listener) {
        execute(IndexAction.INSTANCE, request, listener);
    }

    default void get(GetRequest request, ActionListener<GetResponse> listener) {
        execute(GetAction.INSTANCE, request, listener);
    }
}
