// A stub: what RecordingClient and the examples need of OpenSearch's class of this name, and no more.
package org.opensearch;

public class OpenSearchException extends RuntimeException {
    private static final long serialVersionUID = 1L;

    public OpenSearchException(String message, Throwable cause) {
        super(message, cause);
    }

    public OpenSearchException(String message) {
        super(message);
    }
}
