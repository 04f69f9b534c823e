// A stub: what RecordingClient and the examples need of OpenSearch's class of this name, and no more.
package org.opensearch.action.get;

import org.opensearch.core.action.ActionResponse;

public class MultiGetResponse extends ActionResponse {
    private final MultiGetItemResponse[] responses;

    public MultiGetResponse(MultiGetItemResponse... responses) {
        this.responses = responses;
    }

    public MultiGetItemResponse[] getResponses() {
        return responses;
    }
}
