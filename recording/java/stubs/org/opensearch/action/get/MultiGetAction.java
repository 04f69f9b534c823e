// A stub: what RecordingClient and the examples need of OpenSearch's class of this name, and no more.
package org.opensearch.action.get;

import org.opensearch.action.ActionType;

public final class MultiGetAction extends ActionType<MultiGetResponse> {
    public static final MultiGetAction INSTANCE = new MultiGetAction();

    private MultiGetAction() {
        super("indices:data/read/mget");
    }
}
