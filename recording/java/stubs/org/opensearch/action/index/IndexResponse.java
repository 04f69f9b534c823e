// A stub: what RecordingClient and the examples need of OpenSearch's class of this name, and no more.
package org.opensearch.action.index;

import org.opensearch.action.DocWriteResponse;

public class IndexResponse extends DocWriteResponse {
    public IndexResponse(String id, long seqNo, long primaryTerm, Result result) {
        super(id, seqNo, primaryTerm, result);
    }
}
