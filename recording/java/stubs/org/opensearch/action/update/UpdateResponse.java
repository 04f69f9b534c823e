// A stub: what RecordingClient and the examples need of OpenSearch's class of this name, and no more.
package org.opensearch.action.update;

import org.opensearch.action.DocWriteResponse;

public class UpdateResponse extends DocWriteResponse {
    public UpdateResponse(String id, long seqNo, long primaryTerm, Result result) {
        super(id, seqNo, primaryTerm, result);
    }
}
