// A stub: what RecordingClient and the examples need of OpenSearch's class of this name, and no more.
package org.opensearch.index.mapper;

import org.opensearch.OpenSearchException;

public class MapperParsingException extends OpenSearchException {
    private static final long serialVersionUID = 1L;

    public MapperParsingException(String message) {
        super(message);
    }
}
