// A stub: what RecordingClient and the examples need of OpenSearch's class of this name, and no more.
package org.opensearch;

public class OpenSearchSecurityException extends OpenSearchException {
    private static final long serialVersionUID = 1L;

    public OpenSearchSecurityException(String message) {
        super(message);
    }
}
