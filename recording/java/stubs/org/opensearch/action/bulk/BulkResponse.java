// A stub: what RecordingClient and the examples need of OpenSearch's class of this name, and no more.
package org.opensearch.action.bulk;

import org.opensearch.core.action.ActionResponse;

public class BulkResponse extends ActionResponse {
    private final BulkItemResponse[] items;

    public BulkResponse(BulkItemResponse... items) {
        this.items = items;
    }

    public BulkItemResponse[] getItems() {
        return items;
    }
}
