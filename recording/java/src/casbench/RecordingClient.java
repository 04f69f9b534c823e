package casbench;

import java.io.UncheckedIOException;
import java.nio.charset.StandardCharsets;
import java.security.MessageDigest;
import java.security.NoSuchAlgorithmException;
import java.util.ArrayList;
import java.util.Arrays;
import java.util.HashSet;
import java.util.List;
import java.util.Map;
import java.util.Set;
import java.util.TreeMap;
import java.util.concurrent.ConcurrentHashMap;
import java.util.function.ToIntFunction;

import org.opensearch.ExceptionsHelper;
import org.opensearch.OpenSearchSecurityException;
import org.opensearch.action.ActionRequest;
import org.opensearch.action.ActionRequestValidationException;
import org.opensearch.action.ActionType;
import org.opensearch.action.DocWriteRequest;
import org.opensearch.action.DocWriteResponse;
import org.opensearch.action.IndicesRequest;
import org.opensearch.action.bulk.BulkItemResponse;
import org.opensearch.action.bulk.BulkRequest;
import org.opensearch.action.bulk.BulkResponse;
import org.opensearch.action.get.GetRequest;
import org.opensearch.action.get.GetResponse;
import org.opensearch.action.get.MultiGetItemResponse;
import org.opensearch.action.get.MultiGetRequest;
import org.opensearch.action.get.MultiGetResponse;
import org.opensearch.action.index.IndexRequest;
import org.opensearch.action.update.UpdateRequest;
import org.opensearch.client.Client;
import org.opensearch.client.FilterClient;
import org.opensearch.common.lucene.uid.Versions;
import org.opensearch.core.action.ActionListener;
import org.opensearch.core.action.ActionResponse;
import org.opensearch.core.concurrency.OpenSearchRejectedExecutionException;
import org.opensearch.index.VersionType;
import org.opensearch.index.engine.VersionConflictEngineException;
import org.opensearch.index.mapper.MapperParsingException;
import org.opensearch.search.fetch.subphase.FetchSourceContext;

/**
 * A client of a node that records its requests to one index: index, create, get, delete, partial update, bulk and multi-get.
 *
 * <pre>
 * RecordingClient.Index carts = new RecordingClient.Index(history, "carts");
 * Client client = new RecordingClient(internalCluster().client("node-1"), carts, "node-1");
 * </pre>
 *
 * <p>Calls are recorded before a request is passed on, endings before an answer is. The number of a version is a digest of its source.
 * A call is unknown if the answer doesn't show its outcome. If it isn't known what a request writes, the recording ends before the request
 * is passed on, and what was recorded stays valid. Requests and answers aren't changed.
 */
public final class RecordingClient extends FilterClient {
    private final Index index;
    private final String node;

    /** A client that passes its requests on to another one, of this node; null if the node isn't known. */
    public RecordingClient(Client in, Index index, String node) {
        super(in);
        this.index = index;
        this.node = node;
    }

    @Override
    protected <Request extends ActionRequest, Response extends ActionResponse> void doExecute(
        ActionType<Response> action,
        Request request,
        ActionListener<Response> listener
    ) {
        List<Part> parts = index.asked(action.name(), request, node);
        ActionListener<Response> recorder = new ActionListener<>() {
            @Override
            public void onResponse(Response response) {
                index.answered(parts, response);
                listener.onResponse(response);
            }

            @Override
            public void onFailure(Exception fault) {
                index.failed(parts, fault);
                listener.onFailure(fault);
            }
        };
        try {
            super.doExecute(action, request, recorder);
        } catch (RuntimeException | Error fault) {
            parts.forEach(Part::unknown);
            throw fault;
        }
    }

    /** The recorded index, which was empty when the recording began. Its clients share this object. */
    public static final class Index {
        private static final long OF_UNKNOWN_SOURCE = 1;

        private final CasHistory history;
        private final Set<String> names;
        private final ToIntFunction<String> shardOf;
        private final boolean hasOneShard;
        private final Map<String, Updated> updated = new ConcurrentHashMap<>();
        private volatile String ended;

        /** An index of one shard, with its name and all its aliases. */
        public Index(CasHistory history, String name, String... aliases) {
            this(history, null, name, aliases);
        }

        /** An index of several shards, with a function from an id to its shard. */
        public Index(CasHistory history, ToIntFunction<String> shardOf, String name, String... aliases) {
            this.history = history;
            this.hasOneShard = shardOf == null;
            this.shardOf = hasOneShard ? id -> 0 : shardOf;
            this.names = new HashSet<>(Arrays.asList(aliases));
            this.names.add(name);
        }

        /** Why the recording ended early, or null. */
        public String ended() {
            return ended;
        }

        /** Records the calls of a request, and returns them; null stands for an item without a call. */
        private List<Part> asked(String action, ActionRequest request, String node) {
            List<Part> parts = new ArrayList<>();
            if (ended != null) {
                return parts;
            }
            try {
                ask(action, request, node, parts);
            } catch (Unrecordable why) {
                end(why.getMessage());
            } catch (RuntimeException why) {
                end("a request can't be recorded: " + why);
            }
            return parts;
        }

        private void ask(String action, ActionRequest request, String node, List<Part> parts) throws Unrecordable {
            if (request instanceof DocWriteRequest) {
                parts.add(write((DocWriteRequest<?>) request, node, request instanceof UpdateRequest));
            } else if (request instanceof BulkRequest) {
                BulkRequest bulk = (BulkRequest) request;
                require(hasNoPipeline(bulk.pipeline()) || names(bulk).stream().noneMatch(names::contains), "a bulk request has a pipeline");
                boolean isOfOneShard = hasOneShard && names.containsAll(names(bulk));
                for (DocWriteRequest<?> item : bulk.requests()) {
                    parts.add(write(item, node, !isOfOneShard));
                }
            } else if (request instanceof GetRequest) {
                GetRequest get = (GetRequest) request;
                boolean isLatest = get.realtime() && isLatest(get.preference());
                boolean isWhole = get.storedFields() == null && isWhole(get.fetchSourceContext());
                parts.add(get(get.index(), get.id(), get.routing(), isLatest, isWhole, node));
            } else if (request instanceof MultiGetRequest) {
                MultiGetRequest several = (MultiGetRequest) request;
                for (MultiGetRequest.Item item : several.getItems()) {
                    boolean isLatest = several.realtime() && isLatest(several.preference());
                    boolean isWhole = item.storedFields() == null && isWhole(item.fetchSourceContext());
                    parts.add(get(item.index(), item.id(), item.routing(), isLatest, isWhole, node));
                }
            } else {
                require(!Others.mayWrite(action, request, names), "a request of " + action + " may change documents");
            }
        }

        private static List<String> names(BulkRequest bulk) {
            List<String> names = new ArrayList<>();
            bulk.requests().forEach(it -> names.add(it.index()));
            return names;
        }

        private Part write(DocWriteRequest<?> request, String node, boolean mayHaveBegun) throws Unrecordable {
            if (!names.contains(request.index())) {
                return null;
            }
            require(request.id() != null, "a write has no id, so the document's is known too late");
            require(hasOneShard || request.routing() == null, "a write has a routing, so its shard isn't known");
            CasHistory.Op op = opOf(request);
            CasHistory.Operation operation = operation(op, request.id(), node);
            // (a create takes no condition, and a request that has one is refused by its validation)
            if (op != CasHistory.Op.CREATE) {
                operation.condition(request.ifSeqNo(), request.ifPrimaryTerm());
            }
            if (op != CasHistory.Op.DELETE) {
                operation.value(numberOf(request));
            }
            boolean isUpdate = request instanceof UpdateRequest;
            boolean hasCondition = request.ifPrimaryTerm() != CasHistory.NO_PRIMARY_TERM;
            boolean isSure = hasPlainVersion(request) && (!isUpdate || hasCondition);
            return new Part(history.call(operation), request.id(), op, mayHaveBegun, isSure, false);
        }

        private static CasHistory.Op opOf(DocWriteRequest<?> request) {
            switch (request.opType()) {
                case CREATE:
                    return CasHistory.Op.CREATE;
                case DELETE:
                    return CasHistory.Op.DELETE;
                default:
                    return CasHistory.Op.INDEX;
            }
        }

        /** The number of the source that a write writes; all unknown sources have the same one. */
        private long numberOf(DocWriteRequest<?> request) throws Unrecordable {
            if (request instanceof UpdateRequest) {
                UpdateRequest update = (UpdateRequest) request;
                require(update.script() == null, "an update has a script, which may delete the document");
                return numberOfUnknown(request.id());
            }
            IndexRequest index = (IndexRequest) request;
            require(hasNoPipeline(index.getPipeline()), "a write has a pipeline");
            try {
                return Sources.numberOf(index.sourceAsMap());
            } catch (RuntimeException unreadable) {
                return numberOfUnknown(request.id());
            }
        }

        private long numberOfUnknown(String id) {
            updated.computeIfAbsent(id, it -> new Updated());
            return OF_UNKNOWN_SOURCE;
        }

        private Part get(String index, String id, String routing, boolean isLatest, boolean isWhole, String node) {
            if (!names.contains(index) || !isLatest || !hasOneShard && routing != null) {
                return null;
            }
            return new Part(history.call(operation(CasHistory.Op.GET, id, node)), id, CasHistory.Op.GET, false, true, isWhole);
        }

        private CasHistory.Operation operation(CasHistory.Op op, String id, String node) {
            CasHistory.Operation operation = new CasHistory.Operation(op, id).shard(shardOf.applyAsInt(id));
            return node == null ? operation : operation.node(node);
        }

        private static boolean isLatest(String preference) {
            return preference == null || preference.equals("_primary");
        }

        private static boolean isWhole(FetchSourceContext context) {
            return context == null || context.fetchSource() && context.includes().length == 0 && context.excludes().length == 0;
        }

        private static boolean hasNoPipeline(String pipeline) {
            return pipeline == null || pipeline.equals("_none");
        }

        private static boolean hasPlainVersion(DocWriteRequest<?> request) {
            boolean isAny = request.version() == Versions.MATCH_ANY || request.version() == Versions.MATCH_DELETED;
            return isAny && request.versionType() == VersionType.INTERNAL;
        }

        /** Ends the recording: the open calls are recorded as lost, and only then may a request pass without a line. */
        private synchronized void end(String why) {
            if (ended != null) {
                return;
            }
            history.note("the recording ends: " + why);
            try {
                history.close();
            } catch (UncheckedIOException fault) {
                // (the next `close` or `assertExplained` throws it)
            }
            ended = why;
            System.err.println("casbench: the recording ends, since " + why);
        }

        // Answers

        private void answered(List<Part> parts, Object response) {
            try {
                heed(parts, response);
            } catch (RuntimeException unread) {
                end("an answer can't be read: " + unread);
            }
            // (a call without an ending is unknown)
            parts.forEach(Part::unknown);
        }

        private void heed(List<Part> parts, Object response) {
            if (response instanceof BulkResponse) {
                BulkItemResponse[] items = ((BulkResponse) response).getItems();
                for (int i = 0; i < parts.size(); i++) {
                    answeredItem(parts.get(i), i < items.length ? items[i] : null);
                }
            } else if (response instanceof MultiGetResponse) {
                MultiGetItemResponse[] items = ((MultiGetResponse) response).getResponses();
                for (int i = 0; i < parts.size(); i++) {
                    answeredOne(parts.get(i), i < items.length && !items[i].isFailed() ? items[i].getResponse() : null);
                }
            } else if (parts.size() == 1) {
                answeredOne(parts.get(0), response);
            }
        }

        private void answeredItem(Part part, BulkItemResponse item) {
            if (part != null && item != null && item.isFailed()) {
                part.failed(item.getFailure().getCause());
            } else {
                answeredOne(part, item == null ? null : item.getResponse());
            }
        }

        private void answeredOne(Part part, Object response) {
            if (part != null && response instanceof GetResponse && part.op == CasHistory.Op.GET) {
                got(part, (GetResponse) response);
            } else if (part != null && response instanceof DocWriteResponse && part.op != CasHistory.Op.GET) {
                wrote(part, (DocWriteResponse) response);
            }
        }

        private void wrote(Part part, DocWriteResponse response) {
            DocWriteResponse.Result result = response.getResult();
            boolean isDelete = part.op == CasHistory.Op.DELETE;
            DocWriteResponse.Result first = isDelete ? DocWriteResponse.Result.DELETED : DocWriteResponse.Result.CREATED;
            DocWriteResponse.Result second = isDelete ? DocWriteResponse.Result.NOT_FOUND : DocWriteResponse.Result.UPDATED;
            if (!part.id.equals(response.getId()) || result != first && result != second) {
                return;
            }
            Updated versions = updated.get(part.id);
            if (versions != null && !isDelete) {
                versions.numbers.put(List.of(response.getPrimaryTerm(), response.getSeqNo()), part.call.value());
            }
            if (isDelete) {
                part.call.deleted(response.getSeqNo(), response.getPrimaryTerm(), result == first);
            } else {
                part.call.indexed(response.getSeqNo(), response.getPrimaryTerm(), result == first);
            }
        }

        private void got(Part part, GetResponse response) {
            if (!part.id.equals(response.getId())) {
                return;
            }
            if (!response.isExists()) {
                part.call.missing();
            } else if (part.isWhole && !response.isSourceEmpty()) {
                Long number = numberShown(part.id, response);
                if (number != null) {
                    part.call.found(response.getSeqNo(), response.getPrimaryTerm(), number);
                }
            }
        }

        /** The number of the version that a get found; null if its source may be unknown. */
        private Long numberShown(String id, GetResponse response) {
            Updated versions = updated.get(id);
            long shown = Sources.numberOf(response.getSourceAsMap());
            if (versions == null) {
                return shown;
            }
            Long written = versions.numbers.get(List.of(response.getPrimaryTerm(), response.getSeqNo()));
            return written == null || written == OF_UNKNOWN_SOURCE ? written : Long.valueOf(shown);
        }

        private void failed(List<Part> parts, Exception fault) {
            for (Part part : parts) {
                if (part != null) {
                    part.failed(fault);
                }
            }
        }
    }

    /** A document with an unknown source: the numbers of the versions in later answers, by primary term and sequence number. */
    private static final class Updated {
        private final Map<List<Long>, Long> numbers = new ConcurrentHashMap<>();
    }

    /** A call of a request, and how its answer is read. */
    private static final class Part {
        private static final String BY_COORDINATOR = "rejected execution of coordinating operation";

        private final CasHistory.Call call;
        private final String id;
        private final CasHistory.Op op;
        private final boolean mayHaveBegun;
        private final boolean isSure;
        private final boolean isWhole;

        private Part(CasHistory.Call call, String id, CasHistory.Op op, boolean mayHaveBegun, boolean isSure, boolean isWhole) {
            this.call = call;
            this.id = id;
            this.op = op;
            this.mayHaveBegun = mayHaveBegun;
            this.isSure = isSure;
            this.isWhole = isWhole;
        }

        /** Ends the call as unknown, unless it has an ending. */
        private static void unknown(Part part) {
            if (part != null && part.call.isOpen()) {
                part.call.unknown();
            }
        }

        /** Ends the call by an exception: a conflict, a refusal that proves that nothing was performed, or else unknown. */
        private void failed(Exception fault) {
            Throwable cause = ExceptionsHelper.unwrapCause(fault);
            if (!call.isOpen()) {
                return;
            }
            if (op != CasHistory.Op.GET && isSure && cause instanceof VersionConflictEngineException) {
                call.conflict();
            } else if (op != CasHistory.Op.GET && isRefusal(cause)) {
                call.refused();
            } else {
                call.unknown();
            }
        }

        /**
         * Whether the exception comes before any attempt, or for each attempt alike. The node that coordinates a request may send it again
         * after a connection broke. It may reject what it has begun: a single update is passed on to the primary's node, which may reject a
         * later attempt; and a bulk request is sent shard by shard, and is rejected as a whole if a later shard rejects it.
         */
        private boolean isRefusal(Throwable cause) {
            if (cause instanceof OpenSearchRejectedExecutionException) {
                return !mayHaveBegun && String.valueOf(cause.getMessage()).startsWith(BY_COORDINATOR);
            }
            return cause instanceof ActionRequestValidationException
                || cause instanceof MapperParsingException
                || cause instanceof OpenSearchSecurityException;
        }
    }

    /** Requests without lines. */
    private static final class Others {
        private static final List<String> WRITES = List.of(
            "indices:data/write/",
            "indices:admin/delete",
            "indices:admin/aliases",
            "indices:admin/rollover",
            "indices:admin/data_stream/",
            "cluster:admin/snapshot/restore"
        );

        /** Whether a request may change documents of an index with these names. */
        private static boolean mayWrite(String action, ActionRequest request, Set<String> names) {
            if (WRITES.stream().noneMatch(action::startsWith)) {
                return false;
            }
            String[] indices = request instanceof IndicesRequest ? ((IndicesRequest) request).indices() : null;
            boolean mayBeOfOthers = action.equals("indices:admin/delete") || action.endsWith("/byquery");
            boolean namesThem = indices != null && indices.length > 0 && Arrays.stream(indices).allMatch(it -> isAnother(it, names));
            return !mayBeOfOthers || !namesThem;
        }

        private static boolean isAnother(String name, Set<String> names) {
            return !names.contains(name) && !name.equals("_all") && name.chars().noneMatch(c -> "*,<-".indexOf(c) >= 0);
        }
    }

    /** The numbers of sources: equal sources have the same one, whatever the order of their keys. */
    private static final class Sources {
        private static final long LEAST = 2;

        /** The first 64 bits of SHA-256 of the source with its keys in order. */
        private static long numberOf(Map<String, Object> source) {
            StringBuilder text = new StringBuilder();
            append(text, source);
            try {
                byte[] digest = MessageDigest.getInstance("SHA-256").digest(text.toString().getBytes(StandardCharsets.UTF_8));
                long number = 0;
                for (int i = 0; i < Long.BYTES; i++) {
                    number = number << Byte.SIZE | digest[i] & 0xff;
                }
                return Long.compareUnsigned(number, LEAST) < 0 ? LEAST : number;
            } catch (NoSuchAlgorithmException missing) {
                throw new AssertionError("each Java has SHA-256", missing);
            }
        }

        private static void append(StringBuilder text, Object value) {
            if (value instanceof Map) {
                Map<String, Object> members = new TreeMap<>();
                ((Map<?, ?>) value).forEach((key, it) -> members.put(String.valueOf(key), it));
                members.forEach((key, it) -> {
                    text.append('{').append(key.length()).append(':').append(key).append('=');
                    append(text, it);
                });
                text.append('}');
            } else if (value instanceof Iterable) {
                ((Iterable<?>) value).forEach(it -> append(text.append('['), it));
                text.append(']');
            } else if (value instanceof byte[]) {
                text.append('b').append(Arrays.toString((byte[]) value));
            } else if (value instanceof String) {
                text.append('"').append(((String) value).length()).append(':').append(value);
            } else {
                text.append(value).append(';');
            }
        }
    }

    private static void require(boolean isSo, String why) throws Unrecordable {
        if (!isSo) {
            throw new Unrecordable(why);
        }
    }

    /** Thrown if it isn't known what a request writes. */
    private static final class Unrecordable extends Exception {
        private static final long serialVersionUID = 1L;

        private Unrecordable(String why) {
            super(why);
        }
    }
}
