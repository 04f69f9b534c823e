// A stub: what RecordingClient and the examples need of OpenSearch's class of this name, and no more.
package org.opensearch.action.get;

import java.util.ArrayList;
import java.util.List;
import org.opensearch.action.ActionRequest;
import org.opensearch.search.fetch.subphase.FetchSourceContext;

public class MultiGetRequest extends ActionRequest {
    private final List<Item> items = new ArrayList<>();

    public MultiGetRequest add(String index, String id) {
        items.add(new Item(index, id));
        return this;
    }

    public List<Item> getItems() {
        return items;
    }

    public boolean realtime() {
        return true;
    }

    public String preference() {
        return null;
    }

    public static class Item {
        private final String index;
        private final String id;

        public Item(String index, String id) {
            this.index = index;
            this.id = id;
        }

        public String index() {
            return index;
        }

        public String id() {
            return id;
        }

        public String routing() {
            return null;
        }

        public String[] storedFields() {
            return null;
        }

        public FetchSourceContext fetchSourceContext() {
            return null;
        }
    }
}
