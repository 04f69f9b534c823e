// A stub: what RecordingClient and the examples need of OpenSearch's class of this name, and no more.
package org.opensearch.action.delete;

import org.opensearch.action.ActionType;

public final class DeleteAction extends ActionType<DeleteResponse> {
    public static final DeleteAction INSTANCE = new DeleteAction();

    private DeleteAction() {
        super("indices:data/write/delete");
    }
}
