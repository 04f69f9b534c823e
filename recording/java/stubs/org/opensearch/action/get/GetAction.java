// A stub: what RecordingClient and the examples need of OpenSearch's class of this name, and no more.
package org.opensearch.action.get;

import org.opensearch.action.ActionType;

public final class GetAction extends ActionType<GetResponse> {
    public static final GetAction INSTANCE = new GetAction();

    private GetAction() {
        super("indices:data/read/get");
    }
}
