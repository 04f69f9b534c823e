// A stub: what RecordingClient and the examples need of OpenSearch's class of this name, and no more.
package org.opensearch.action.get;

import java.util.Map;
import org.opensearch.core.action.ActionResponse;

public class GetResponse extends ActionResponse {
    private final String id;
    private final long seqNo;
    private final long primaryTerm;
    private final boolean exists;
    private final Map<String, Object> source;

    public GetResponse(String id, long seqNo, long primaryTerm, boolean exists, Map<String, Object> source) {
        this.id = id;
        this.seqNo = seqNo;
        this.primaryTerm = primaryTerm;
        this.exists = exists;
        this.source = source;
    }

    public String getId() {
        return id;
    }

    public long getSeqNo() {
        return seqNo;
    }

    public long getPrimaryTerm() {
        return primaryTerm;
    }

    public boolean isExists() {
        return exists;
    }

    public boolean isSourceEmpty() {
        return source == null;
    }

    public Map<String, Object> getSourceAsMap() {
        return source;
    }
}
