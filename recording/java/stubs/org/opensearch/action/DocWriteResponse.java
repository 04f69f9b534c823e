// A stub: what RecordingClient and the examples need of OpenSearch's class of this name, and no more.
package org.opensearch.action;

import org.opensearch.core.action.ActionResponse;

public abstract class DocWriteResponse extends ActionResponse {
    private final String id;
    private final long seqNo;
    private final long primaryTerm;
    private final Result result;

    protected DocWriteResponse(String id, long seqNo, long primaryTerm, Result result) {
        this.id = id;
        this.seqNo = seqNo;
        this.primaryTerm = primaryTerm;
        this.result = result;
    }

    public String getId() {
        return id;
    }

    public long getSeqNo() {
        return seqNo;
    }

    public long getPrimaryTerm() {
        return primaryTerm;
    }

    public Result getResult() {
        return result;
    }

    public enum Result {
        CREATED,
        UPDATED,
        DELETED,
        NOT_FOUND,
        NOOP
    }
}
