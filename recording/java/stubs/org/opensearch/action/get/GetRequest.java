// A stub: what RecordingClient and the examples need of OpenSearch's class of this name, and no more.
package org.opensearch.action.get;

import org.opensearch.action.ActionRequest;
import org.opensearch.search.fetch.subphase.FetchSourceContext;

public class GetRequest extends ActionRequest {
    private final String index;
    private final String id;
    private String routing;
    private String preference;
    private boolean realtime = true;
    private FetchSourceContext fetchSourceContext;

    public GetRequest(String index, String id) {
        this.index = index;
        this.id = id;
    }

    public String index() {
        return index;
    }

    public String id() {
        return id;
    }

    public GetRequest routing(String routing) {
        this.routing = routing;
        return this;
    }

    public String routing() {
        return routing;
    }

    public GetRequest preference(String preference) {
        this.preference = preference;
        return this;
    }

    public String preference() {
        return preference;
    }

    public GetRequest realtime(boolean realtime) {
        this.realtime = realtime;
        return this;
    }

    public boolean realtime() {
        return realtime;
    }

    public GetRequest fetchSourceContext(FetchSourceContext context) {
        fetchSourceContext = context;
        return this;
    }

    public FetchSourceContext fetchSourceContext() {
        return fetchSourceContext;
    }

    public String[] storedFields() {
        return null;
    }
}
