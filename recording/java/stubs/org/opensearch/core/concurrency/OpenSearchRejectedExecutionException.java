// A stub: what RecordingClient and the examples need of OpenSearch's class of this name, and no more.
package org.opensearch.core.concurrency;

import java.util.concurrent.RejectedExecutionException;

public class OpenSearchRejectedExecutionException extends RejectedExecutionException {
    private static final long serialVersionUID = 1L;

    public OpenSearchRejectedExecutionException(String message) {
        super(message);
    }
}
