import casbench.CasHistory;
import casbench.RecordingClient;

import java.nio.file.Files;
import java.nio.file.Path;
import java.nio.file.Paths;
import java.util.Arrays;
import java.util.List;
import java.util.Map;

import org.opensearch.OpenSearchException;
import org.opensearch.OpenSearchSecurityException;
import org.opensearch.action.ActionRequest;
import org.opensearch.action.ActionRequestValidationException;
import org.opensearch.action.ActionType;
import org.opensearch.action.DocWriteResponse.Result;
import org.opensearch.action.IndicesRequest;
import org.opensearch.action.bulk.BulkAction;
import org.opensearch.action.bulk.BulkItemResponse;
import org.opensearch.action.bulk.BulkRequest;
import org.opensearch.action.bulk.BulkResponse;
import org.opensearch.action.delete.DeleteAction;
import org.opensearch.action.delete.DeleteRequest;
import org.opensearch.action.delete.DeleteResponse;
import org.opensearch.action.get.GetAction;
import org.opensearch.action.get.GetRequest;
import org.opensearch.action.get.GetResponse;
import org.opensearch.action.get.MultiGetAction;
import org.opensearch.action.get.MultiGetItemResponse;
import org.opensearch.action.get.MultiGetRequest;
import org.opensearch.action.get.MultiGetResponse;
import org.opensearch.action.index.IndexAction;
import org.opensearch.action.index.IndexRequest;
import org.opensearch.action.index.IndexResponse;
import org.opensearch.action.update.UpdateAction;
import org.opensearch.action.update.UpdateRequest;
import org.opensearch.action.update.UpdateResponse;
import org.opensearch.client.Client;
import org.opensearch.core.action.ActionListener;
import org.opensearch.core.action.ActionResponse;
import org.opensearch.core.concurrency.OpenSearchRejectedExecutionException;
import org.opensearch.index.VersionType;
import org.opensearch.index.engine.VersionConflictEngineException;
import org.opensearch.index.mapper.MapperParsingException;
import org.opensearch.script.Script;
import org.opensearch.search.fetch.subphase.FetchSourceContext;
import org.opensearch.transport.RemoteTransportException;

/** Requests through a recording client, each with an answer: {@code Clients FOLDER}. Each row has a history of its own, with its name. */
public final class Clients {
    private static final Map<String, Object> SOURCE = Map.of("x", 1, "y", List.of("a", Map.of("z", 1.5)));
    private static final Exception CONFLICT = remote(new VersionConflictEngineException("[d]: version conflict"));
    private static final Exception COORDINATOR = rejected("rejected execution of coordinating operation [bytes]");
    private static final Exception PRIMARY = rejected("rejected execution of primary operation [bytes]");

    private final Path folder;
    private String name;
    private CasHistory history;
    private RecordingClient.Index index;

    private Clients(Path folder) {
        this.folder = folder;
    }

    public static void main(String[] words) throws Exception {
        Clients clients = new Clients(Paths.get(words[0]));
        clients.endings();
        clients.writes();
        clients.gets();
        clients.several();
        clients.sources();
        clients.unrecordable();
        clients.ended();
    }

    /** A node that answers with a response, with an exception for the listener, or by throwing one. */
    private static final class Node implements Client {
        private final Object answer;

        private Node(Object answer) {
            this.answer = answer;
        }

        @Override
        @SuppressWarnings("unchecked")
        public <Q extends ActionRequest, R extends ActionResponse> void execute(ActionType<R> action, Q request, ActionListener<R> listener) {
            if (answer instanceof Error) {
                throw (Error) answer;
            } else if (answer instanceof Exception) {
                listener.onFailure((Exception) answer);
            } else {
                listener.onResponse((R) answer);
            }
        }
    }

    private void begin(String name) {
        ended();
        this.name = name;
        history = CasHistory.open(folder.resolve(name), new CasHistory.Options().flush());
        index = new RecordingClient.Index(history, "carts", "alias");
    }

    private void ended() {
        if (history != null) {
            history.close();
            if (history.late() != 0) {
                throw new AssertionError(name + ": a call was ended twice");
            }
            if (index.ended() != null) {
                System.out.println(name + ": " + index.ended());
            }
        }
    }

    /** Sends a request, and checks that the listener gets the answer. */
    private <R extends ActionResponse> void ask(ActionType<R> action, ActionRequest request, Object answer) {
        Object[] outcome = new Object[1];
        ActionListener<R> listener = new ActionListener<>() {
            @Override
            public void onResponse(R response) {
                outcome[0] = response;
            }

            @Override
            public void onFailure(Exception fault) {
                outcome[0] = fault;
            }
        };
        try {
            new RecordingClient(new Node(answer), index, "node-1").execute(action, request, listener);
        } catch (Error thrown) {
            outcome[0] = thrown;
        }
        if (outcome[0] != answer) {
            throw new AssertionError(name + ": the answer was " + outcome[0]);
        }
    }

    private <R extends ActionResponse> void row(String name, ActionType<R> action, ActionRequest request, Object answer) {
        begin(name);
        ask(action, request, answer);
    }

    private static Exception remote(Exception cause) {
        return new RemoteTransportException("node-2", cause);
    }

    private static Exception rejected(String reason) {
        return remote(new OpenSearchRejectedExecutionException(reason));
    }

    private static IndexRequest index() {
        return new IndexRequest("carts").id("d").source(SOURCE);
    }

    private static UpdateRequest update() {
        return new UpdateRequest("carts").id("d").doc(SOURCE);
    }

    private static GetRequest get() {
        return new GetRequest("carts", "d");
    }

    private static GetResponse found(long seqNo) {
        return new GetResponse("d", seqNo, 1, true, SOURCE);
    }

    private void endings() {
        row("validation", IndexAction.INSTANCE, index(), new ActionRequestValidationException());
        row("mapping", IndexAction.INSTANCE, index(), remote(new MapperParsingException("failed to parse")));
        row("security", IndexAction.INSTANCE, index(), remote(new OpenSearchSecurityException("no permissions")));
        row("coordinator", IndexAction.INSTANCE, index(), COORDINATOR);
        row("primary", IndexAction.INSTANCE, index(), PRIMARY);
        row("argument", IndexAction.INSTANCE, index(), new IllegalArgumentException("limit of fields"));
        row("timeout", IndexAction.INSTANCE, index(), new OpenSearchException("timeout"));
        row("conflict", IndexAction.INSTANCE, index().setIfSeqNo(3).setIfPrimaryTerm(2), CONFLICT);
        row("conflict-within", IndexAction.INSTANCE, index(), new OpenSearchException("failed", new VersionConflictEngineException("x")));
        row("thrown", IndexAction.INSTANCE, index(), new AssertionError("a fault of the node"));
        row("coordinator-update", UpdateAction.INSTANCE, update(), COORDINATOR);
        row("conflict-update", UpdateAction.INSTANCE, update(), CONFLICT);
        row("conflict-update-if", UpdateAction.INSTANCE, update().setIfSeqNo(3).setIfPrimaryTerm(2), CONFLICT);
        row("conflict-version", IndexAction.INSTANCE, index().version(7).versionType(VersionType.EXTERNAL), CONFLICT);
        row("get-fails", GetAction.INSTANCE, get(), COORDINATOR);
    }

    private void writes() {
        row("created", IndexAction.INSTANCE, index(), new IndexResponse("d", 0, 1, Result.CREATED));
        row("updated", IndexAction.INSTANCE, index().setIfSeqNo(3).setIfPrimaryTerm(2), new IndexResponse("d", 4, 2, Result.UPDATED));
        row("create", IndexAction.INSTANCE, index().create(true), new IndexResponse("d", 0, 1, Result.CREATED));
        DeleteRequest delete = new DeleteRequest("alias").id("d").setIfSeqNo(0).setIfPrimaryTerm(1);
        row("deleted", DeleteAction.INSTANCE, delete, new DeleteResponse("d", 1, 1, Result.DELETED));
        row("not-found", DeleteAction.INSTANCE, new DeleteRequest("carts").id("d"), new DeleteResponse("d", 1, 1, Result.NOT_FOUND));
        row("upsert", UpdateAction.INSTANCE, update(), new UpdateResponse("d", 0, 1, Result.CREATED));
        row("noop", UpdateAction.INSTANCE, update(), new UpdateResponse("d", 0, 1, Result.NOOP));
        row("no-pair", IndexAction.INSTANCE, index(), new IndexResponse("d", -2, 0, Result.CREATED));
        row("another-id", IndexAction.INSTANCE, index(), new IndexResponse("e", 0, 1, Result.CREATED));
        row("another-index", IndexAction.INSTANCE, new IndexRequest("other").id("d"), new IndexResponse("d", 0, 1, Result.CREATED));
    }

    private void gets() {
        row("found", GetAction.INSTANCE, get(), found(0));
        row("found-primary", GetAction.INSTANCE, get().preference("_primary"), found(0));
        row("missing", GetAction.INSTANCE, get(), new GetResponse("d", -2, 0, false, null));
        row("preference", GetAction.INSTANCE, get().preference("_local"), found(0));
        row("not-realtime", GetAction.INSTANCE, get().realtime(false), found(0));
        FetchSourceContext part = new FetchSourceContext(true, new String[] { "x" }, new String[0]);
        row("part", GetAction.INSTANCE, get().fetchSourceContext(part), found(0));
        row("no-source", GetAction.INSTANCE, get(), new GetResponse("d", 0, 1, true, null));
    }

    private void several() {
        MultiGetRequest several = new MultiGetRequest().add("carts", "a").add("other", "b").add("carts", "c").add("carts", "d");
        MultiGetItemResponse missing = new MultiGetItemResponse(new GetResponse("a", -2, 0, false, null));
        MultiGetItemResponse failed = new MultiGetItemResponse(null);
        row("mget", MultiGetAction.INSTANCE, several, new MultiGetResponse(missing, missing, failed, new MultiGetItemResponse(found(0))));
        row("mget-fails", MultiGetAction.INSTANCE, several, new OpenSearchException("timeout"));
        row("bulk", BulkAction.INSTANCE, bulk(), new BulkResponse(
            new BulkItemResponse(new IndexResponse("a", 0, 1, Result.CREATED), null),
            new BulkItemResponse(null, new BulkItemResponse.Failure(CONFLICT)),
            new BulkItemResponse(new IndexResponse("x", 0, 1, Result.CREATED), null),
            new BulkItemResponse(null, new BulkItemResponse.Failure(PRIMARY)),
            new BulkItemResponse(null, new BulkItemResponse.Failure(COORDINATOR))
        ));
        row("bulk-short", BulkAction.INSTANCE, bulk(), new BulkResponse());
        row("bulk-refused", BulkAction.INSTANCE, bulk(), COORDINATOR);
        row("bulk-refused-of-one-shard", BulkAction.INSTANCE, new BulkRequest().add(index()).add(update()), COORDINATOR);
        begin("bulk-refused-of-shards");
        index = new RecordingClient.Index(history, id -> 5, "carts");
        ask(BulkAction.INSTANCE, new BulkRequest().add(index()).add(update()), COORDINATOR);
        row("bulk-fails", BulkAction.INSTANCE, bulk(), new OpenSearchException("timeout"));
    }

    private static BulkRequest bulk() {
        return new BulkRequest()
            .add(new IndexRequest("carts").id("a").source(SOURCE))
            .add(new IndexRequest("carts").id("b").source(SOURCE).create(true))
            .add(new IndexRequest("other").id("x").source(SOURCE))
            .add(new DeleteRequest("carts").id("c"))
            .add(update());
    }

    /** A get is recorded with the number of its source; after a write of an unknown source only if the pair identifies its write. */
    private void sources() {
        begin("sources");
        ask(IndexAction.INSTANCE, index(), new IndexResponse("d", 0, 1, Result.CREATED));
        ask(GetAction.INSTANCE, get(), found(0));
        ask(UpdateAction.INSTANCE, update(), new UpdateResponse("d", 1, 1, Result.UPDATED));
        ask(GetAction.INSTANCE, get(), found(1));
        ask(UpdateAction.INSTANCE, update(), new OpenSearchException("timeout"));
        ask(GetAction.INSTANCE, get(), found(2));
        ask(IndexAction.INSTANCE, index(), new IndexResponse("d", 3, 1, Result.UPDATED));
        ask(GetAction.INSTANCE, get(), found(3));
        ask(GetAction.INSTANCE, get(), new GetResponse("d", 3, 1, true, Map.of("x", 2)));
        ask(IndexAction.INSTANCE, new IndexRequest("carts").id("unread"), new IndexResponse("unread", 4, 1, Result.CREATED));
    }

    /** A request ends the recording if it isn't known what it writes; one for another index doesn't. */
    private void unrecordable() {
        List<IndexRequest> wrong = Arrays.asList(
            new IndexRequest("carts").source(SOURCE),
            index().setPipeline("p"),
            new IndexRequest("carts").id("").source(SOURCE)
        );
        for (int i = 0; i < wrong.size(); i++) {
            ending("unrecordable-" + i, IndexAction.INSTANCE, wrong.get(i));
        }
        ending("script", UpdateAction.INSTANCE, update().script(new Script()));
        ending("pipeline", BulkAction.INSTANCE, bulk().pipeline("p"));
        for (String action : List.of("indices:data/write/reindex", "indices:data/write/update/byquery", "indices:admin/delete")) {
            ending("other-" + action.replace(':', '-').replace('/', '-'), new ActionType<>(action), new OfIndices("carts"));
        }
        ending("other-pattern", new ActionType<>("indices:admin/delete"), new OfIndices("c*"));
        ending("other-passes-1", new ActionType<>("indices:admin/delete"), new OfIndices("other"));
        ending("other-passes-2", new ActionType<>("indices:admin/refresh"), new OfIndices("carts"));
        begin("several-shards");
        index = new RecordingClient.Index(history, id -> 5, "carts");
        ask(IndexAction.INSTANCE, index(), new IndexResponse("d", 0, 1, Result.CREATED));
        ask(GetAction.INSTANCE, get().routing("r"), found(0));
        ask(IndexAction.INSTANCE, index().routing("r"), new IndexResponse("d", 1, 1, Result.UPDATED));
        ask(GetAction.INSTANCE, get(), found(1));
    }

    /** A write, this request, and a get after it, which has a line only if the recording goes on. */
    private <R extends ActionResponse> void ending(String name, ActionType<R> action, ActionRequest request) {
        begin(name);
        ask(IndexAction.INSTANCE, index(), new IndexResponse("d", 0, 1, Result.CREATED));
        ask(action, request, new OpenSearchException("whatever"));
        ask(GetAction.INSTANCE, get(), found(0));
    }

    private static final class OfIndices extends ActionRequest implements IndicesRequest {
        private final String[] indices;

        private OfIndices(String... indices) {
            this.indices = indices;
        }

        @Override
        public String[] indices() {
            return indices;
        }
    }
}
