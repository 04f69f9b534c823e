// A stub: what RecordingClient and the examples need of OpenSearch's class of this name, and no more.
package org.opensearch.transport;

import org.opensearch.OpenSearchException;
import org.opensearch.OpenSearchWrapperException;

public class RemoteTransportException extends OpenSearchException implements OpenSearchWrapperException {
    private static final long serialVersionUID = 1L;

    public RemoteTransportException(String message, Throwable cause) {
        super(message, cause);
    }
}
