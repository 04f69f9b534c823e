import casbench.examples.ConcurrentVersionedWritesIT;
import casbench.examples.ReplicatedMap;
import casbench.examples.ReplicatedMap.Fault;
import casbench.examples.ReplicatedMap.Version;

import java.nio.file.Paths;
import java.util.ArrayList;
import java.util.HashMap;
import java.util.List;
import java.util.Map;
import java.util.concurrent.atomic.AtomicLong;

import org.opensearch.OpenSearchException;
import org.opensearch.action.ActionRequest;
import org.opensearch.action.ActionType;
import org.opensearch.action.DocWriteRequest;
import org.opensearch.action.DocWriteResponse;
import org.opensearch.action.DocWriteResponse.Result;
import org.opensearch.action.bulk.BulkItemResponse;
import org.opensearch.action.bulk.BulkRequest;
import org.opensearch.action.bulk.BulkResponse;
import org.opensearch.action.delete.DeleteRequest;
import org.opensearch.action.delete.DeleteResponse;
import org.opensearch.action.get.GetRequest;
import org.opensearch.action.get.GetResponse;
import org.opensearch.action.get.MultiGetItemResponse;
import org.opensearch.action.get.MultiGetRequest;
import org.opensearch.action.get.MultiGetResponse;
import org.opensearch.action.index.IndexRequest;
import org.opensearch.action.index.IndexResponse;
import org.opensearch.action.update.UpdateRequest;
import org.opensearch.action.update.UpdateResponse;
import org.opensearch.client.Client;
import org.opensearch.core.action.ActionListener;
import org.opensearch.core.action.ActionResponse;
import org.opensearch.index.engine.VersionConflictEngineException;

/** The example of a cluster's test, on a replicated map instead of the cluster: {@code OnMap FILE FAULT}. It is a client of the map too. */
public final class OnMap implements Client, ConcurrentVersionedWritesIT.Cluster {
    private static final int ANSWERS_LOST = 20;

    private final ReplicatedMap map;
    private final AtomicLong asked = new AtomicLong();

    OnMap(Fault fault) {
        map = new ReplicatedMap(fault);
    }

    public static void main(String[] words) throws InterruptedException {
        try {
            ConcurrentVersionedWritesIT.run(new OnMap(Fault.valueOf(words[1])), Paths.get(words[0]), 8, 500);
            System.out.println("passed");
        } catch (AssertionError failure) {
            System.out.println("failed: " + failure.getMessage());
        }
    }

    @Override
    public List<Client> clients() {
        return List.of(this, this, this);
    }

    @Override
    public void disrupt() {
        map.promote();
        try {
            Thread.sleep(5);
        } catch (InterruptedException interrupted) {
            throw new IllegalStateException(interrupted);
        }
    }

    /** Performs the request; one answer in twenty is lost. */
    @Override
    @SuppressWarnings("unchecked")
    public <Q extends ActionRequest, R extends ActionResponse> void execute(ActionType<R> action, Q request, ActionListener<R> listener) {
        ActionResponse response = null;
        Exception fault = null;
        try {
            response = performed(request);
        } catch (OpenSearchException why) {
            fault = why;
        }
        if (asked.incrementAndGet() % ANSWERS_LOST == 0) {
            listener.onFailure(new OpenSearchException("the node was disconnected"));
        } else if (fault != null) {
            listener.onFailure(fault);
        } else {
            listener.onResponse((R) response);
        }
    }

    private ActionResponse performed(ActionRequest request) {
        if (request instanceof GetRequest) {
            return got(((GetRequest) request).id());
        } else if (request instanceof MultiGetRequest) {
            List<MultiGetItemResponse> items = new ArrayList<>();
            ((MultiGetRequest) request).getItems().forEach(it -> items.add(new MultiGetItemResponse(got(it.id()))));
            return new MultiGetResponse(items.toArray(new MultiGetItemResponse[0]));
        } else if (request instanceof BulkRequest) {
            List<BulkItemResponse> items = new ArrayList<>();
            ((BulkRequest) request).requests().forEach(it -> items.add(item(it)));
            return new BulkResponse(items.toArray(new BulkItemResponse[0]));
        }
        return written((DocWriteRequest<?>) request);
    }

    private BulkItemResponse item(DocWriteRequest<?> request) {
        try {
            return new BulkItemResponse(written(request), null);
        } catch (OpenSearchException fault) {
            return new BulkItemResponse(null, new BulkItemResponse.Failure(fault));
        }
    }

    private DocWriteResponse written(DocWriteRequest<?> request) {
        if (request instanceof UpdateRequest) {
            return updated((UpdateRequest) request);
        } else if (request instanceof DeleteRequest) {
            DeleteRequest delete = (DeleteRequest) request;
            Version version = map.write(delete.id(), null, delete.ifSeqNo(), delete.ifPrimaryTerm());
            Result result = version.replaces ? Result.DELETED : Result.NOT_FOUND;
            return new DeleteResponse(delete.id(), version.seqNo, version.primaryTerm, result);
        }
        return indexed((IndexRequest) request);
    }

    /** Puts the members of the part into the document, in one try: another write in between is a conflict. */
    @SuppressWarnings("unchecked")
    private DocWriteResponse updated(UpdateRequest update) {
        Version last = map.get(update.id());
        if (last == null) {
            throw new OpenSearchException("document missing");
        }
        Map<String, Object> source = new HashMap<>((Map<String, Object>) last.value);
        source.putAll(update.doc().sourceAsMap());
        if (source.equals(last.value)) {
            return new UpdateResponse(update.id(), last.seqNo, last.primaryTerm, Result.NOOP);
        }
        Version version = map.write(update.id(), source, last.seqNo, last.primaryTerm);
        if (version == null) {
            throw new VersionConflictEngineException("version conflict");
        }
        return new UpdateResponse(update.id(), version.seqNo, version.primaryTerm, Result.UPDATED);
    }

    private DocWriteResponse indexed(IndexRequest index) {
        boolean isCreate = index.opType() == IndexRequest.OpType.CREATE;
        Version version = isCreate
            ? map.create(index.id(), index.sourceAsMap())
            : map.write(index.id(), index.sourceAsMap(), index.ifSeqNo(), index.ifPrimaryTerm());
        if (version == null) {
            throw new VersionConflictEngineException("version conflict");
        }
        Result result = version.replaces ? Result.UPDATED : Result.CREATED;
        return new IndexResponse(index.id(), version.seqNo, version.primaryTerm, result);
    }

    @SuppressWarnings("unchecked")
    private GetResponse got(String id) {
        Version version = map.get(id);
        return version == null
            ? new GetResponse(id, -2, 0, false, null)
            : new GetResponse(id, version.seqNo, version.primaryTerm, true, (Map<String, Object>) version.value);
    }
}
