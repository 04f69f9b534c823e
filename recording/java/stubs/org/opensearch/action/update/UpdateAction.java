// A stub: what RecordingClient and the examples need of OpenSearch's class of this name, and no more.
package org.opensearch.action.update;

import org.opensearch.action.ActionType;

public final class UpdateAction extends ActionType<UpdateResponse> {
    public static final UpdateAction INSTANCE = new UpdateAction();

    private UpdateAction() {
        super("indices:data/write/update");
    }
}
