// A stub: what RecordingClient and the examples need of OpenSearch's class of this name, and no more.
package org.opensearch.action.bulk;

import java.util.ArrayList;
import java.util.List;
import org.opensearch.action.ActionRequest;
import org.opensearch.action.DocWriteRequest;

public class BulkRequest extends ActionRequest {
    private final List<DocWriteRequest<?>> requests = new ArrayList<>();
    private String pipeline;

    public BulkRequest add(DocWriteRequest<?> request) {
        requests.add(request);
        return this;
    }

    public List<DocWriteRequest<?>> requests() {
        return requests;
    }

    public BulkRequest pipeline(String pipeline) {
        this.pipeline = pipeline;
        return this;
    }

    public String pipeline() {
        return pipeline;
    }
}
