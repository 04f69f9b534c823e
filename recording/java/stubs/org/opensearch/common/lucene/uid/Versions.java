// A stub: what RecordingClient and the examples need of OpenSearch's class of this name, and no more.
package org.opensearch.common.lucene.uid;

public final class Versions {
    public static final long MATCH_ANY = -3L;
    public static final long MATCH_DELETED = -4L;

    private Versions() {}
}
