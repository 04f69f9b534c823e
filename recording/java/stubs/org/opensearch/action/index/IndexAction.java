// A stub: what RecordingClient and the examples need of OpenSearch's class of this name, and no more.
package org.opensearch.action.index;

import org.opensearch.action.ActionType;

public final class IndexAction extends ActionType<IndexResponse> {
    public static final IndexAction INSTANCE = new IndexAction();

    private IndexAction() {
        super("indices:data/write/index");
    }
}
