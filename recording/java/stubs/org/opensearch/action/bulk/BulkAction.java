// A stub: what RecordingClient and the examples need of OpenSearch's class of this name, and no more.
package org.opensearch.action.bulk;

import org.opensearch.action.ActionType;

public final class BulkAction extends ActionType<BulkResponse> {
    public static final BulkAction INSTANCE = new BulkAction();

    private BulkAction() {
        super("indices:data/write/bulk");
    }
}
