// A stub: what RecordingClient and the examples need of OpenSearch's class of this name, and no more.
package org.opensearch.search.fetch.subphase;

public class FetchSourceContext {
    private final boolean fetchSource;
    private final String[] includes;
    private final String[] excludes;

    public FetchSourceContext(boolean fetchSource, String[] includes, String[] excludes) {
        this.fetchSource = fetchSource;
        this.includes = includes;
        this.excludes = excludes;
    }

    public boolean fetchSource() {
        return fetchSource;
    }

    public String[] includes() {
        return includes;
    }

    public String[] excludes() {
        return excludes;
    }
}
