// A stub: what RecordingClient and the examples need of OpenSearch's class of this name, and no more.
package org.opensearch.action.delete;

import org.opensearch.action.DocWriteResponse;

public class DeleteResponse extends DocWriteResponse {
    public DeleteResponse(String id, long seqNo, long primaryTerm, Result result) {
        super(id, seqNo, primaryTerm, result);
    }
}
