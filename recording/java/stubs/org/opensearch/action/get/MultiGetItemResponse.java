// A stub: what RecordingClient and the examples need of OpenSearch's class of this name, and no more.
package org.opensearch.action.get;

public class MultiGetItemResponse {
    private final GetResponse response;

    public MultiGetItemResponse(GetResponse response) {
        this.response = response;
    }

    public boolean isFailed() {
        return response == null;
    }

    public GetResponse getResponse() {
        return response;
    }
}
