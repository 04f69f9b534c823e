// A stub: what RecordingClient and the examples need of OpenSearch's class of this name, and no more.
package org.opensearch.action;

import org.opensearch.core.action.ActionResponse;

public class ActionType<Response extends ActionResponse> {
    private final String name;

    public ActionType(String name) {
        this.name = name;
    }

    public String name() {
        return name;
    }
}
