// A stub: what RecordingClient and the examples need of OpenSearch's class of this name, and no more.
package org.opensearch.action.bulk;

import org.opensearch.action.DocWriteResponse;

public class BulkItemResponse {
    private final DocWriteResponse response;
    private final Failure failure;

    public BulkItemResponse(DocWriteResponse response, Failure failure) {
        this.response = response;
        this.failure = failure;
    }

    public boolean isFailed() {
        return failure != null;
    }

    @SuppressWarnings("unchecked")
    public <T extends DocWriteResponse> T getResponse() {
        return (T) response;
    }

    public Failure getFailure() {
        return failure;
    }

    public static class Failure {
        private final Exception cause;

        public Failure(Exception cause) {
            this.cause = cause;
        }

        public Exception getCause() {
            return cause;
        }
    }
}
