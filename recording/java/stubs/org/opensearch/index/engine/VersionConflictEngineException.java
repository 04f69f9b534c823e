// A stub: what RecordingClient and the examples need of OpenSearch's class of this name, and no more.
package org.opensearch.index.engine;

import org.opensearch.OpenSearchException;

public class VersionConflictEngineException extends OpenSearchException {
    private static final long serialVersionUID = 1L;

    public VersionConflictEngineException(String message) {
        super(message);
    }
}
