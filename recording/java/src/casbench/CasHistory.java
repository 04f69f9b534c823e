package casbench;

import java.io.IOException;
import java.io.UncheckedIOException;
import java.nio.ByteBuffer;
import java.nio.channels.FileChannel;
import java.nio.charset.StandardCharsets;
import java.nio.file.FileAlreadyExistsException;
import java.nio.file.Files;
import java.nio.file.Path;
import java.nio.file.Paths;
import java.nio.file.StandardOpenOption;
import java.util.ArrayList;
import java.util.Arrays;
import java.util.List;
import java.util.Locale;
import java.util.Map;
import java.util.concurrent.ConcurrentHashMap;
import java.util.concurrent.ConcurrentLinkedQueue;
import java.util.concurrent.CopyOnWriteArrayList;
import java.util.concurrent.atomic.AtomicIntegerFieldUpdater;
import java.util.concurrent.atomic.AtomicLong;
import java.util.concurrent.atomic.AtomicReferenceArray;
import java.util.concurrent.atomic.LongAdder;
import java.util.concurrent.locks.LockSupport;

/**
 * Records the calls of a test to a store and the store's replies, as a history that casbench checks.
 *
 * <pre>
 * try (CasHistory history = CasHistory.open(path)) {
 *     CasHistory.Call call = history.index("cart-17", ifSeqNo, ifPrimaryTerm);   // before the request is sent
 *     IndexResponse response = client.index(.. call.value() ..);
 *     call.indexed(response.getSeqNo(), response.getPrimaryTerm(), response.getResult() == CREATED);
 *     history.assertExplained("--profile", "opensearch");
 * }
 * </pre>
 *
 * <p>Any thread may use it. A call is an event, and so is its ending. One counter gives each event its place; the event goes into the
 * slot of that place without a lock, and one thread writes the slots to the file in their order. So the file is always a prefix of
 * the order: with an event it has every one that may have caused it. A file that ends early, because the process was killed, is a
 * valid history of fewer events.
 *
 * <p>The outcome of a call without an ending is unknown. This class needs JDK 11 and nothing else.
 */
public final class CasHistory implements AutoCloseable {

    /** OpenSearch's value of {@code if_seq_no} for a write without a condition. */
    public static final long NO_SEQ_NO = -2;

    /** OpenSearch's value of {@code if_primary_term} for a write without a condition. */
    public static final long NO_PRIMARY_TERM = 0;

    /** The most events of a history. A call takes the room of its own event and of its ending. */
    public static final int MOST_EVENTS = 1_048_576;

    private static final int LONGEST_ID = 512;
    private static final int LONGEST_NAME = 256;
    private static final int LONGEST_NOTE = 1000;
    private static final int MOST_SHARDS = 1024;

    private final Path path;
    private final Options options;
    private final Map<String, Document> documents = new ConcurrentHashMap<>();
    private final List<Part> parts = new CopyOnWriteArrayList<>();
    private final LongAdder leftOut = new LongAdder();
    private final LongAdder late = new LongAdder();
    private volatile Part current;
    private volatile boolean hasEnded;
    private volatile UncheckedIOException fault;

    private CasHistory(Path path, Options options) {
        this.path = path;
        this.options = options;
        this.current = begun(1);
    }

    /** Creates the file, which may not exist, and begins the history. Throws UncheckedIOException if it can't be created. */
    public static CasHistory open(Path path) {
        return open(path, new Options());
    }

    /** The same with options. */
    public static CasHistory open(Path path, Options options) {
        return new CasHistory(path, options.copy());
    }

    /** The options of a recording. */
    public static final class Options {
        private boolean flushes;
        private boolean rotates;
        private boolean isStrict;
        private int mostEvents = MOST_EVENTS;

        /**
         * Each line is written to the operating system before the method that records it returns. Without this a line may be some
         * milliseconds late, and a process that is killed leaves a shorter history.
         */
        public Options flush() {
            flushes = true;
            return this;
        }

        /**
         * When a file is full the next one begins, {@code NAME-2.ndjson} beside {@code NAME.ndjson}. A document stays in the file of its
         * first call: after that file is full its calls are left out. So a test that goes on needs new documents.
         */
        public Options rotate() {
            rotates = true;
            return this;
        }

        /**
         * For a history that isn't checked under {@code --profile opensearch} or with {@code --writes repeated}: a file has room for
         * 524,288 calls. Else a write without a condition takes the room of three events, because it may have been performed twice.
         */
        public Options strict() {
            isStrict = true;
            return this;
        }

        /** A file has room for this many events instead of 1,048,576. */
        public Options mostEvents(int events) {
            require(events >= 3 && events <= MOST_EVENTS, "a file has room for 3 to 1048576 events, and not for " + events);
            mostEvents = events;
            return this;
        }

        private Options copy() {
            Options copied = new Options();
            copied.flushes = flushes;
            copied.rotates = rotates;
            copied.isStrict = isStrict;
            copied.mostEvents = mostEvents;
            return copied;
        }
    }

    /** The kind of an operation. */
    public enum Op {
        GET("get"),
        INDEX("index"),
        CREATE("create"),
        DELETE("delete");

        private final String text;

        Op(String text) {
            this.text = text;
        }

        private boolean writesAValue() {
            return this == INDEX || this == CREATE;
        }
    }

    /** The operation of a call. A value that no history can have is refused with IllegalArgumentException. */
    public static final class Operation {
        private final Op op;
        private final String id;
        private boolean hasValue;
        private long value;
        private long ifSeqNo = NO_SEQ_NO;
        private long ifPrimaryTerm = NO_PRIMARY_TERM;
        private int shard;
        private String client;
        private String node;

        /** An operation on the document with this id, a text of 1 to 512 bytes. */
        public Operation(Op op, String id) {
            require(op != null && id != null, "an operation has an id");
            this.op = op;
            this.id = id;
        }

        /** The number that an index or a create writes, below 2^64: an unsigned long. By default it is the number of the call. */
        public Operation value(long value) {
            require(op.writesAValue(), "a " + op.text + " writes no value");
            this.value = value;
            hasValue = true;
            return this;
        }

        /** The pair that the document must have. OpenSearch's -2 and 0 mean no condition. */
        public Operation condition(long ifSeqNo, long ifPrimaryTerm) {
            boolean isNone = ifSeqNo == NO_SEQ_NO && ifPrimaryTerm == NO_PRIMARY_TERM;
            require(isNone || isPair(ifSeqNo, ifPrimaryTerm), "no condition: if_seq_no " + ifSeqNo + ", if_primary_term " + ifPrimaryTerm);
            require(isNone || op == Op.INDEX || op == Op.DELETE, "a " + op.text + " has no condition");
            this.ifSeqNo = ifSeqNo;
            this.ifPrimaryTerm = ifPrimaryTerm;
            return this;
        }

        /** The shard of the document, 0 to 1023: the same in each of its calls. */
        public Operation shard(int shard) {
            require(shard >= 0 && shard < MOST_SHARDS, "a shard is 0 to 1023, and not " + shard);
            this.shard = shard;
            return this;
        }

        /** The name of the client, a text of 1 to 256 bytes. */
        public Operation client(String client) {
            this.client = nameIf(client);
            return this;
        }

        /** The node that the request goes to, a text of 1 to 256 bytes. */
        public Operation node(String node) {
            this.node = nameIf(node);
            return this;
        }

        private static String nameIf(String name) {
            int length = lengthOf(name);
            require(length >= 1 && length <= LONGEST_NAME, "a client or a node is a text of 1 to 256 bytes, and not " + name);
            return name;
        }
    }

    // Calls

    /** Records a get. Like each method that records a call, it is called before the request is sent. */
    public Call get(String id) {
        return call(new Operation(Op.GET, id));
    }

    /** Records a write of {@code call.value()} without a condition. */
    public Call index(String id) {
        return call(new Operation(Op.INDEX, id));
    }

    /** Records a write of {@code call.value()} under a condition; -2 and 0 mean no condition. */
    public Call index(String id, long ifSeqNo, long ifPrimaryTerm) {
        return call(new Operation(Op.INDEX, id).condition(ifSeqNo, ifPrimaryTerm));
    }

    /** Records a write of {@code call.value()} to a document that doesn't exist. */
    public Call create(String id) {
        return call(new Operation(Op.CREATE, id));
    }

    /** Records a delete without a condition. */
    public Call delete(String id) {
        return call(new Operation(Op.DELETE, id));
    }

    /** Records a delete under a condition; -2 and 0 mean no condition. */
    public Call delete(String id, long ifSeqNo, long ifPrimaryTerm) {
        return call(new Operation(Op.DELETE, id).condition(ifSeqNo, ifPrimaryTerm));
    }

    /**
     * Records a call. If there is no room for it, the open calls are recorded as lost first, so that what was recorded stays valid, and
     * this call has no line; the test goes on.
     */
    public Call call(Operation operation) {
        // (a document whose file takes no more calls has none in a later file either: that would show calls that were left out)
        Document document = documentOf(operation);
        Call call = new Call(document.part, operation, document.quotedId);
        if (!document.part.begin(call)) {
            leftOut.increment();
            if (options.rotates) {
                rotate(document.part);
            }
        }
        return call;
    }

    /** Puts a note on the next line, such as what was done to the store. At most 1,000 characters; those that aren't ASCII are escaped. */
    public void note(String text) {
        current.note(text);
    }

    private Document documentOf(Operation operation) {
        Document document = documents.get(operation.id);
        if (document == null) {
            int length = lengthOf(operation.id);
            require(length >= 1 && length <= LONGEST_ID, "an id is a text of 1 to 512 bytes, and not " + operation.id);
            Document added = new Document(operation.id, current, operation.shard);
            document = documents.putIfAbsent(operation.id, added);
            document = document == null ? added : document;
        }
        if (document.shard != operation.shard) {
            throw new IllegalArgumentException(operation.id + " is on shard " + document.shard + ", and not on " + operation.shard);
        }
        return document;
    }

    /** A document: its id as JSON text, the file of its calls, and its shard. */
    private static final class Document {
        private final byte[] quotedId;
        private final Part part;
        private final int shard;

        private Document(String id, Part part, int shard) {
            this.quotedId = Line.quotedBytes(id);
            this.part = part;
            this.shard = shard;
        }
    }

    /** A call. Its first ending counts; a later one, or one after the history was closed, is dropped. */
    public static final class Call extends Event {
        private static final AtomicIntegerFieldUpdater<Call> ENDED = AtomicIntegerFieldUpdater.newUpdater(Call.class, "ended");

        private final Part part;
        private final Op op;
        private final byte[] quotedId;
        private final long ifSeqNo;
        private final long ifPrimaryTerm;
        private final int shard;
        private final String client;
        private final String node;
        private final boolean hasValue;
        private long value;
        private int number = -1;
        private volatile int ended;

        private Call(Part part, Operation asked, byte[] quotedId) {
            this.part = part;
            this.quotedId = quotedId;
            op = asked.op;
            ifSeqNo = asked.ifSeqNo;
            ifPrimaryTerm = asked.ifPrimaryTerm;
            shard = asked.shard;
            client = asked.client;
            node = asked.node;
            hasValue = asked.hasValue;
            value = asked.value;
        }

        /** Whether the call has a line. It has none if there was no room for it. */
        public boolean isRecorded() {
            return number >= 0;
        }

        /** Whether the call has no ending yet. */
        public boolean isOpen() {
            return ended == 0;
        }

        /** The number that the write writes, in the source's member {@code k}: an unsigned long. */
        public long value() {
            return value;
        }

        // Endings. Each returns whether it is recorded: the first one of a call is.

        /** The write was performed, with this pair, and made the document or replaced a version of it. */
        public boolean indexed(long seqNo, long primaryTerm, boolean created) {
            requireReply(op.writesAValue(), "indexed");
            return end(shown(created ? 201 : 200, created ? "created" : "updated", seqNo, primaryTerm, 0));
        }

        /** The delete was performed, with this pair, and the document was there or not. */
        public boolean deleted(long seqNo, long primaryTerm, boolean found) {
            requireReply(op == Op.DELETE, "deleted");
            return end(shown(found ? 200 : 404, found ? "deleted" : "not_found", seqNo, primaryTerm, 0));
        }

        /** The get found the version with this pair, which holds this number. */
        public boolean found(long seqNo, long primaryTerm, long k) {
            requireReply(op == Op.GET, "found");
            return end(shown(200, null, seqNo, primaryTerm, k));
        }

        /** The get found no document. */
        public boolean missing() {
            requireReply(op == Op.GET, "missing");
            return end(new Ending(number, quotedId, 404, null, NO_SEQ_NO, NO_PRIMARY_TERM, 0));
        }

        /** The write was refused because of the state of the document: OpenSearch's version conflict. */
        public boolean conflict() {
            requireReply(op != Op.GET, "a conflict");
            return end(new Ending(number, quotedId, 409, null, NO_SEQ_NO, NO_PRIMARY_TERM, 0));
        }

        /** The outcome is unknown, as after a timeout, a lost connection, or any exception that doesn't show what was done. */
        public boolean unknown() {
            return end(Ending.withoutReply(number, false));
        }

        /** No attempt performed anything, and the reply proves it. A timeout, a 503 or a block doesn't prove it. */
        public boolean refused() {
            return end(Ending.withoutReply(number, true));
        }

        /** The ending by a reply. Without a pair the version isn't known, and the outcome is unknown. */
        private Ending shown(int status, String result, long seqNo, long primaryTerm, long k) {
            boolean hasPair = isPair(seqNo, primaryTerm);
            return hasPair ? new Ending(number, quotedId, status, result, seqNo, primaryTerm, k) : Ending.withoutReply(number, false);
        }

        private void requireReply(boolean isSo, String reply) {
            require(isSo, "a " + op.text + " can't be answered as " + reply);
        }

        private boolean end(Ending ending) {
            if (!isRecorded()) {
                return false;
            }
            boolean isRecorded = ENDED.compareAndSet(this, 0, 1) && part.end(ending);
            if (!isRecorded) {
                part.late();
            }
            return isRecorded;
        }

        private int room(boolean isStrict) {
            boolean mayBeRepeated = op == Op.CREATE || op != Op.GET && ifPrimaryTerm == NO_PRIMARY_TERM;
            return !isStrict && mayBeRepeated ? 3 : 2;
        }

        @Override
        void write(Line line, boolean[] open) {
            open[number] = true;
            line.begin("\"e\":\"call\",\"n\":").number(number).time(time).text(",\"id\":").bytes(quotedId);
            line.text(",\"op\":\"").text(op.text).text("\"");
            if (op.writesAValue()) {
                line.text(",\"k\":").unsigned(value);
            }
            if (ifPrimaryTerm != NO_PRIMARY_TERM) {
                line.text(",\"if_seq_no\":").number(ifSeqNo).text(",\"if_primary_term\":").number(ifPrimaryTerm);
            }
            if (client != null) {
                line.text(",\"client\":").quoted(client);
            }
            if (node != null) {
                line.text(",\"node\":").quoted(node);
            }
            if (shard != 0) {
                line.text(",\"shard\":").number(shard);
            }
            line.text("}\n");
        }
    }

    /** An event, which has a line of its own. */
    private abstract static class Event {
        /** Its time, in milliseconds since 1970. The order doesn't depend on it. */
        final long time = System.currentTimeMillis();

        /** Writes its line, and updates which calls are open. */
        abstract void write(Line line, boolean[] open);
    }

    /** The ending of a call: a reply, or what is known without one. */
    private static final class Ending extends Event {
        private static final int LOST = 0;
        private static final int VOID = 1;

        private final int number;
        private final byte[] quotedId;
        private final int status;
        private final String result;
        private final long seqNo;
        private final long primaryTerm;
        private final long k;

        private Ending(int number, byte[] quotedId, int status, String result, long seqNo, long primaryTerm, long k) {
            this.number = number;
            this.quotedId = quotedId;
            this.status = status;
            this.result = result;
            this.seqNo = seqNo;
            this.primaryTerm = primaryTerm;
            this.k = k;
        }

        private static Ending withoutReply(int number, boolean isVoid) {
            return new Ending(number, null, isVoid ? VOID : LOST, null, NO_SEQ_NO, NO_PRIMARY_TERM, 0);
        }

        @Override
        void write(Line line, boolean[] open) {
            open[number] = false;
            boolean isLost = status == LOST || status == VOID;
            line.begin(isLost ? "\"e\":\"lost\",\"n\":" : "\"e\":\"reply\",\"n\":").number(number).time(time);
            if (status == LOST) {
                line.text("}\n");
            } else if (status == VOID) {
                line.text(",\"void\":true}\n");
            } else if (status == 409) {
                line.text(",\"status\":409,\"body\":{\"error\":{\"type\":\"version_conflict_engine_exception\"}}}\n");
            } else {
                line.text(",\"status\":").number(status).text(",\"body\":{\"_id\":").bytes(quotedId);
                writeVersion(line);
                line.text("}}\n");
            }
        }

        private void writeVersion(Line line) {
            boolean hasPair = primaryTerm != NO_PRIMARY_TERM;
            if (result != null) {
                line.text(",\"result\":\"").text(result).text("\"");
            } else {
                line.text(hasPair ? ",\"found\":true" : ",\"found\":false");
            }
            if (hasPair) {
                line.text(",\"_seq_no\":").number(seqNo).text(",\"_primary_term\":").number(primaryTerm);
            }
            if (result == null && hasPair) {
                line.text(",\"_source\":{\"k\":").unsigned(k).text("}");
            }
        }
    }

    // Files

    /** How many calls have no line because there was no room for them. */
    public long leftOut() {
        return leftOut.sum();
    }

    /** How many endings were dropped because the call had one already or the history was closed. */
    public long late() {
        return late.sum();
    }

    /** The files in which calls were recorded. */
    public List<Path> files() {
        List<Path> files = new ArrayList<>();
        for (Part part : parts) {
            if (part.hasCalls()) {
                files.add(part.file);
            }
        }
        return files;
    }

    /**
     * Ends the history: the open calls are recorded as lost, and no more are recorded. When it returns, all lines are in the file. A
     * file without a call is removed. Throws UncheckedIOException if a line couldn't be written; the lines before it are complete.
     */
    @Override
    public void close() {
        synchronized (parts) {
            hasEnded = true;
            current.close();
        }
        for (Part part : parts) {
            UncheckedIOException why = part.await();
            fault = fault == null ? why : fault;
        }
        if (fault != null) {
            throw fault;
        }
    }

    /** Begins the next file. If it can't be created, the history ends, and `close` throws. */
    private void rotate(Part full) {
        synchronized (parts) {
            if (current == full && !hasEnded) {
                try {
                    current = begun(parts.size() + 1);
                } catch (UncheckedIOException why) {
                    hasEnded = true;
                    fault = why;
                }
            }
        }
    }

    private Part begun(int number) {
        try {
            Part part = new Part(numbered(number), options, late, () -> hasEnded = true);
            parts.add(part);
            return part;
        } catch (IOException fault) {
            throw new UncheckedIOException(fault);
        }
    }

    private Path numbered(int number) {
        String name = path.getFileName().toString();
        int dot = name.lastIndexOf('.') > 0 ? name.lastIndexOf('.') : name.length();
        return number == 1 ? path : path.resolveSibling(name.substring(0, dot) + "-" + number + name.substring(dot));
    }

    /** A file, and the slots of its events. */
    private static final class Part {
        /** The bit of the state that is set when no more events are accepted. */
        private static final long CLOSED = Long.MIN_VALUE;

        private final Path file;
        private final Options options;
        private final LongAdder late;
        private final ConcurrentLinkedQueue<Note> notes = new ConcurrentLinkedQueue<>();
        private final Writer writer;
        private final Thread thread;

        /** The lower half is the number of events, the upper half the room of their calls; if negative, no more events are accepted. */
        private final AtomicLong state = new AtomicLong();

        private Part(Path file, Options options, LongAdder late, Runnable ended) throws IOException {
            this.file = file;
            this.options = options;
            this.late = late;
            writer = new Writer(file, options, notes, () -> {
                close();
                ended.run();
            });
            thread = new Thread(writer, "casbench-writer");
            thread.setDaemon(true);
            thread.start();
        }

        /** Records a call; false if no more are accepted. If there is no room for it, none are accepted from then on. */
        private boolean begin(Call call) {
            int room = call.room(options.isStrict);
            while (true) {
                long seen = state.get();
                if (seen < 0) {
                    return false;
                }
                if ((seen >>> 32) + room > options.mostEvents) {
                    close();
                    return false;
                }
                if (state.compareAndSet(seen, seen + ((long) room << 32) + 1)) {
                    call.number = (int) seen;
                    call.value = call.hasValue ? call.value : call.number;
                    put((int) seen, call);
                    return true;
                }
            }
        }

        /** Records the ending of a call, whose room was reserved with the call; false if no more events are accepted. */
        private boolean end(Ending ending) {
            long seen = state.getAndIncrement();
            if (seen >= 0) {
                put((int) seen, ending);
            }
            return seen >= 0;
        }

        private void put(int at, Event event) {
            writer.slots.setRelease(at, event);
            if (options.flushes) {
                writer.awaitWritten(thread, at);
            }
        }

        private void note(String text) {
            StringBuilder plain = new StringBuilder();
            text.chars().forEach(c -> plain.append(c >= ' ' && c < 0x7f ? String.valueOf((char) c) : String.format(Locale.ROOT, "\\u%04x", c)));
            notes.add(new Note((int) state.get(), plain.toString()));
        }

        private void late() {
            late.increment();
        }

        private boolean hasCalls() {
            return (int) state.get() > 0;
        }

        /** Accepts no more events. Those before are still written, and then the open calls as lost. */
        private void close() {
            long seen = state.getAndAccumulate(CLOSED, (was, closed) -> was | closed);
            if (seen >= 0) {
                writer.endAt((int) seen);
                LockSupport.unpark(thread);
            }
        }

        /** Waits until all events are written; returns the error if one couldn't be, or null. */
        private UncheckedIOException await() {
            boolean wasInterrupted = false;
            while (thread.isAlive()) {
                try {
                    thread.join();
                } catch (InterruptedException interrupted) {
                    wasInterrupted = true;
                }
            }
            if (wasInterrupted) {
                Thread.currentThread().interrupt();
            }
            IOException why = writer.fault;
            return why == null ? null : new UncheckedIOException(file + ": " + why.getMessage() + ". The lines before are whole", why);
        }
    }

    /** A note, and how many events there were when it was made. */
    private static final class Note {
        private final int at;
        private final String text;

        private Note(int at, String text) {
            this.at = at;
            this.text = text;
        }
    }

    /** Writes the events to the file, in the order of their slots. */
    private static final class Writer implements Runnable {
        private static final int MOST_BYTES = 1 << 17;
        private static final int MOST_BYTES_OF_A_LINE = 1 << 14;
        private static final long SHORTEST_REST = 50_000;
        private static final long LONGEST_REST = 5_000_000;

        private final Path file;
        private final FileChannel channel;
        private final ConcurrentLinkedQueue<Note> notes;
        private final boolean flushes;
        private final Runnable failed;
        // (these are released when the file is complete)
        private AtomicReferenceArray<Event> slots;
        private boolean[] open;
        private Line line = new Line(MOST_BYTES);
        private int at;
        private long length;
        private int written;
        private boolean isOver;
        private volatile int end = -1;
        private volatile IOException fault;

        private Writer(Path file, Options options, ConcurrentLinkedQueue<Note> notes, Runnable failed) throws IOException {
            this.file = file;
            this.notes = notes;
            this.flushes = options.flushes;
            this.failed = failed;
            this.slots = new AtomicReferenceArray<>(options.mostEvents);
            this.open = new boolean[options.mostEvents];
            try {
                channel = FileChannel.open(file, StandardOpenOption.CREATE_NEW, StandardOpenOption.WRITE);
            } catch (FileAlreadyExistsException there) {
                throw new IOException(file + " is there already", there);
            }
        }

        /** Sets how many events are written. */
        private void endAt(int events) {
            end = events;
        }

        @Override
        public void run() {
            try {
                writeEvents();
                loseWhatIsOpen();
                flush();
                slots = null;
                open = null;
                line = null;
            } catch (IOException why) {
                fail(why);
            } catch (RuntimeException | Error why) {
                fail(new IOException(why));
            } finally {
                closeFile();
                publish(at, true);
            }
        }

        private void writeEvents() throws IOException {
            long rest = SHORTEST_REST;
            while (end < 0 || at < end) {
                Event event = at < slots.length() ? slots.getAcquire(at) : null;
                if (event != null) {
                    slots.setPlain(at, null);
                    write(event);
                    rest = SHORTEST_REST;
                } else if (line.length() > 0) {
                    flush();
                } else {
                    // (an interrupt would close the file, and has no other meaning here)
                    Thread.interrupted();
                    LockSupport.parkNanos(this, rest);
                    rest = Math.min(rest * 2, LONGEST_REST);
                }
            }
        }

        private void write(Event event) throws IOException {
            if (line.length() > MOST_BYTES - MOST_BYTES_OF_A_LINE) {
                flush();
            }
            Note next = notes.peek();
            if (next != null && next.at <= at) {
                line.note = notesUpTo(at);
            }
            event.write(line, open);
            at++;
        }

        private String notesUpTo(int at) {
            StringBuilder text = new StringBuilder();
            for (Note next = notes.peek(); next != null && next.at <= at; next = notes.peek()) {
                text.append(text.length() == 0 ? "" : "; ").append(notes.poll().text);
            }
            return text.substring(0, Math.min(text.length(), LONGEST_NOTE));
        }

        private void loseWhatIsOpen() throws IOException {
            for (int number = 0; number < open.length; number++) {
                if (open[number]) {
                    write(Ending.withoutReply(number, false));
                }
            }
        }

        private void flush() throws IOException {
            ByteBuffer bytes = line.taken();
            int count = bytes.remaining();
            Thread.interrupted();
            while (bytes.hasRemaining()) {
                channel.write(bytes);
            }
            length += count;
            publish(at, false);
        }

        /** Ends the history, and cuts off a line that was not written completely. */
        private void fail(IOException why) {
            fault = why;
            failed.run();
            try {
                channel.truncate(length);
            } catch (IOException alsoThat) {
                why.addSuppressed(alsoThat);
            }
        }

        private void closeFile() {
            try {
                channel.close();
                if (length == 0) {
                    Files.deleteIfExists(file);
                }
            } catch (IOException why) {
                fault = fault == null ? why : fault;
            }
        }

        /** Publishes how many events are in the file, to the threads that wait for that. */
        private void publish(int events, boolean isLast) {
            if (flushes) {
                synchronized (this) {
                    written = events;
                    isOver = isLast;
                    notifyAll();
                }
            }
        }

        /** Waits until the event in this slot is in the file, or can no longer be written. */
        private void awaitWritten(Thread thread, int slot) {
            boolean wasInterrupted = false;
            LockSupport.unpark(thread);
            synchronized (this) {
                while (written <= slot && !isOver) {
                    try {
                        wait();
                    } catch (InterruptedException interrupted) {
                        wasInterrupted = true;
                    }
                }
            }
            if (wasInterrupted) {
                Thread.currentThread().interrupt();
            }
        }
    }

    /** The bytes of lines that wait to be written: ASCII, with escapes for all other characters. */
    private static final class Line {
        private final byte[] bytes;
        private final byte[] digits = new byte[20];
        private long lastTime = -1;
        private byte[] textOfTime;
        private int length;
        private String note = "";

        private Line(int most) {
            bytes = new byte[most];
        }

        private int length() {
            return length;
        }

        /** Removes the bytes, and returns them. */
        private ByteBuffer taken() {
            ByteBuffer taken = ByteBuffer.wrap(bytes, 0, length);
            length = 0;
            return taken;
        }

        private Line begin(String members) {
            text("{");
            if (!note.isEmpty()) {
                text("\"note\":").quoted(note).text(",");
                note = "";
            }
            return text(members);
        }

        @SuppressWarnings("deprecation")
        private Line text(String ascii) {
            int count = ascii.length();
            ascii.getBytes(0, count, bytes, length);
            length += count;
            return this;
        }

        private Line number(long number) {
            long rest = number;
            int at = digits.length;
            do {
                digits[--at] = (byte) ('0' + rest % 10);
                rest /= 10;
            } while (rest > 0);
            System.arraycopy(digits, at, bytes, length, digits.length - at);
            length += digits.length - at;
            return this;
        }

        /** The member of the time, whose text is mostly that of the line before. */
        private Line time(long time) {
            if (time != lastTime) {
                lastTime = time;
                textOfTime = (",\"t\":" + time).getBytes(StandardCharsets.US_ASCII);
            }
            return bytes(textOfTime);
        }

        private Line unsigned(long number) {
            return number >= 0 ? number(number) : text(Long.toUnsignedString(number));
        }

        private Line bytes(byte[] ascii) {
            System.arraycopy(ascii, 0, bytes, length, ascii.length);
            length += ascii.length;
            return this;
        }

        private Line quoted(String value) {
            return bytes(quotedBytes(value));
        }

        /** The JSON text of a string, in ASCII. */
        private static byte[] quotedBytes(String value) {
            StringBuilder text = new StringBuilder("\"");
            for (int i = 0; i < value.length(); i++) {
                char c = value.charAt(i);
                if (c >= ' ' && c < 0x7f && c != '"' && c != '\\') {
                    text.append(c);
                } else {
                    text.append(String.format(Locale.ROOT, "\\u%04x", (int) c));
                }
            }
            return text.append('"').toString().getBytes(StandardCharsets.US_ASCII);
        }
    }

    // The verdict

    /**
     * Closes the history, and checks each file with casbench, with options such as {@code "--profile", "opensearch"}.
     *
     * <p>The program is the one that the system property {@code casbench.program} names, or else the environment variable
     * {@code CASBENCH}, or else {@code casbench} on the path. If there is none, or if no process may be started, the files are kept, and
     * a line on standard error shows how to check them.
     *
     * @throws AssertionError with the output of {@code casbench explain}, if provably nothing explains a history, or if it is refused; or
     *     if it has fewer calls than {@code --at-least}, if nothing was recorded, or if the program failed. A {@code no} that isn't proved
     *     accuses nobody: its explanation is printed on standard error.
     */
    public void assertExplained(String... options) {
        close();
        List<Path> files = files();
        if (files.isEmpty()) {
            throw new AssertionError("casbench: no call was recorded, so nothing was judged");
        }
        Judge judge = Judge.found();
        for (Path file : files) {
            judge.assertExplained(file, Arrays.asList(options));
        }
    }

    /** Whether there is a program that {@link #assertExplained} runs; without one nothing is judged. */
    public static boolean hasProgram() {
        return Judge.found().program != null;
    }

    /** The program, if there is one. */
    private static final class Judge {
        private static final int TOO_FEW = 6;

        private final String program;
        private final boolean isNamed;

        private Judge(String program, boolean isNamed) {
            this.program = program;
            this.isNamed = isNamed;
        }

        private static Judge found() {
            try {
                String named = System.getProperty("casbench.program", System.getenv("CASBENCH"));
                return named != null ? new Judge(named, true) : new Judge(onPath(), false);
            } catch (SecurityException denied) {
                return new Judge(null, false);
            }
        }

        private static String onPath() {
            String path = System.getenv("PATH");
            for (String folder : (path == null ? "" : path).split(":")) {
                Path program = Paths.get(folder.isEmpty() ? "." : folder, "casbench");
                if (Files.isExecutable(program) && Files.isRegularFile(program)) {
                    return program.toString();
                }
            }
            return null;
        }

        private void assertExplained(Path file, List<String> options) {
            try {
                Ran checked = program == null ? null : ran("check", withRuleOut(options), file);
                if (checked == null) {
                    printHow(file, options, "casbench isn't here");
                } else if (checked.status == TOO_FEW) {
                    throw new AssertionError(checked.text.trim());
                } else if (checked.status == 1 || checked.status == 2) {
                    heed(file, ran("explain", withoutAtLeast(withRuleOut(options)), file), options);
                } else if (checked.status != 0) {
                    throw new AssertionError("casbench could not check " + file + ": status " + checked.status + "\n" + checked.text);
                }
            } catch (SecurityException denied) {
                printHow(file, options, "no process may be started here");
            } catch (IOException fault) {
                if (isNamed) {
                    throw new AssertionError("casbench can't be run: " + fault.getMessage(), fault);
                }
                printHow(file, options, "casbench can't be run: " + fault.getMessage());
            }
        }

        /** Fails with the explanation, except for a no that isn't proved. */
        private static void heed(Path file, Ran explained, List<String> options) {
            if (explained.status > 2) {
                throw new AssertionError("casbench could not explain " + file + ": status " + explained.status + "\n" + explained.text);
            }
            String text = file + ": " + explained.answer() + "\n" + explained.explanation();
            if (explained.answer().equals("no") && !explained.isProved()) {
                System.err.println("casbench accuses nobody, and found no order. " + text);
            } else {
                throw new AssertionError("casbench check " + String.join(" ", options) + " " + text);
            }
        }

        private static void printHow(Path file, List<String> options, String why) {
            String words = String.join(" ", withRuleOut(options));
            System.err.println(why + ", so nothing was judged. To check: casbench check " + words + " " + file);
        }

        private static List<String> withRuleOut(List<String> options) {
            List<String> more = new ArrayList<>(options);
            if (!more.contains("--rule-out")) {
                more.add("--rule-out");
            }
            return more;
        }

        private static List<String> withoutAtLeast(List<String> options) {
            List<String> fewer = new ArrayList<>(options);
            int at = fewer.indexOf("--at-least");
            if (at >= 0) {
                fewer.subList(at, Math.min(at + 2, fewer.size())).clear();
            }
            fewer.removeIf(it -> it.startsWith("--at-least="));
            return fewer;
        }

        private Ran ran(String command, List<String> options, Path file) throws IOException {
            List<String> words = new ArrayList<>(List.of(program, command, "--json"));
            words.addAll(options);
            words.add(file.toAbsolutePath().toString());
            Process process = new ProcessBuilder(words).redirectErrorStream(true).start();
            process.getOutputStream().close();
            String text = new String(process.getInputStream().readAllBytes(), StandardCharsets.UTF_8);
            while (true) {
                try {
                    return new Ran(process.waitFor(), text);
                } catch (InterruptedException interrupted) {
                    process.destroy();
                    Thread.currentThread().interrupt();
                    throw new IOException("interrupted", interrupted);
                }
            }
        }
    }

    /** The exit status of a run of the program, and its output: a JSON object, and lines of standard error. */
    private static final class Ran {
        private final int status;
        private final String text;

        private Ran(int status, String text) {
            this.status = status;
            this.text = text;
        }

        private String answer() {
            return member("answer");
        }

        private boolean isProved() {
            return text.contains("\"proved\":true");
        }

        private String explanation() {
            return member("explanation");
        }

        /** The value of a string member. Within a string each quotation mark is escaped, so none looks like a member. */
        private String member(String name) {
            String start = "\"" + name + "\":\"";
            int at = text.indexOf(start);
            StringBuilder value = new StringBuilder();
            for (int i = at + start.length(); at >= 0 && i < text.length() && text.charAt(i) != '"'; i++) {
                char c = text.charAt(i);
                if (c == '\\') {
                    c = text.charAt(++i);
                    if (c == 'u') {
                        c = (char) Integer.parseInt(text.substring(i + 1, i + 5), 16);
                        i += 4;
                    } else {
                        c = c == 'n' ? '\n' : c == 't' ? '\t' : c == 'r' ? '\r' : c == 'b' ? '\b' : c == 'f' ? '\f' : c;
                    }
                }
                value.append(c);
            }
            return value.toString();
        }
    }

    // Values

    private static void require(boolean isSo, String fault) {
        if (!isSo) {
            throw new IllegalArgumentException(fault);
        }
    }

    private static boolean isPair(long seqNo, long primaryTerm) {
        return seqNo >= 0 && primaryTerm >= 1;
    }

    /** How many bytes a text has in UTF-8; 0 for null, and for a text with an unpaired surrogate. */
    private static int lengthOf(String text) {
        int length = 0;
        for (int i = 0; text != null && i < text.length(); i++) {
            char c = text.charAt(i);
            if (Character.isSurrogate(c)) {
                if (!Character.isHighSurrogate(c) || i + 1 == text.length() || !Character.isLowSurrogate(text.charAt(i + 1))) {
                    return 0;
                }
                i++;
                length += 4;
            } else {
                length += c < 0x80 ? 1 : c < 0x800 ? 2 : 3;
            }
        }
        return length;
    }
}
