import casbench.CasHistory;

import java.nio.file.Files;
import java.nio.file.Path;
import java.nio.file.Paths;
import java.util.ArrayList;
import java.util.List;
import java.util.Map;
import java.util.SplittableRandom;
import java.util.concurrent.ConcurrentHashMap;
import java.util.concurrent.atomic.AtomicLong;

/**
 * Threads that read and write documents of a linearizable store, and record it: {@code Load FILE THREADS CALLS ROUNDS WORD..}. Each round
 * has its own file, FILE-1 and on, and a line with its calls, and the seconds until all were in the file. The words are options.
 */
public final class Load {
    private static final int DOCUMENTS = 256;
    private static final int CALLS_OF_A_GENERATION = 2000;

    /** A document: its lock guards it. */
    private static final class Document {
        private long seqNo = -1;
        private long k;
        private boolean isThere;
    }

    private final CasHistory history;
    private final AtomicLong numbers = new AtomicLong();
    private final boolean takesNewDocuments;
    private final AtomicLong turns = new AtomicLong();
    private final Map<Long, Document[]> generations = new ConcurrentHashMap<>();

    private Load(CasHistory history, boolean takesNewDocuments) {
        this.history = history;
        this.takesNewDocuments = takesNewDocuments;
    }

    public static void main(String[] words) throws Exception {
        Path file = Paths.get(words[0]);
        int threads = Integer.parseInt(words[1]);
        int calls = Integer.parseInt(words[2]);
        for (int round = 1; round <= Integer.parseInt(words[3]); round++) {
            CasHistory.Options options = new CasHistory.Options();
            boolean isNew = false;
            for (int i = 4; i < words.length; i++) {
                isNew |= words[i].equals("new-documents");
                set(options, words[i]);
            }
            round(file.resolveSibling(file.getFileName() + "-" + round), options, threads, calls, isNew);
        }
    }

    private static void set(CasHistory.Options options, String word) {
        if (word.equals("flush")) {
            options.flush();
        } else if (word.equals("rotate")) {
            options.rotate();
        } else if (word.equals("strict")) {
            options.strict();
        } else if (word.startsWith("most=")) {
            options.mostEvents(Integer.parseInt(word.substring("most=".length())));
        }
    }

    private static void round(Path file, CasHistory.Options options, int threads, int calls, boolean isNew) throws Exception {
        CasHistory history = CasHistory.open(file, options);
        Load load = new Load(history, isNew);
        Document[] documents = documents();
        List<Thread> running = new ArrayList<>();
        long began = System.nanoTime();
        for (int i = 0; i < threads; i++) {
            int seed = i;
            Thread thread = new Thread(() -> load.run(seed, calls / threads, documents));
            running.add(thread);
            thread.start();
        }
        for (Thread thread : running) {
            thread.join();
        }
        history.close();
        double seconds = (System.nanoTime() - began) / 1e9;
        System.out.printf("%d %.4f %d %d%n", calls, seconds, history.leftOut(), history.late());
        for (Path it : history.files()) {
            System.out.println(it + " " + Files.size(it));
        }
    }

    private static Document[] documents() {
        Document[] documents = new Document[DOCUMENTS];
        for (int i = 0; i < DOCUMENTS; i++) {
            documents[i] = new Document();
        }
        return documents;
    }

    private void run(int seed, int calls, Document[] documents) {
        SplittableRandom random = new SplittableRandom(seed);
        for (int i = 0; i < calls; i++) {
            int at = random.nextInt(DOCUMENTS);
            if (takesNewDocuments) {
                // (all threads take new documents every so often, so that several threads use a new one at once)
                long generation = turns.getAndIncrement() / CALLS_OF_A_GENERATION;
                one(random, generations.computeIfAbsent(generation, it -> documents())[at], "d" + generation + "-" + at);
            } else {
                one(random, documents[at], "d" + at);
            }
        }
    }

    private void one(SplittableRandom random, Document document, String id) {
        int turn = random.nextInt(10);
        if (turn < 6) {
            get(document, id);
        } else if (turn < 9) {
            write(document, id, turn < 8);
        } else {
            delete(document, id);
        }
    }

    private void get(Document document, String id) {
        CasHistory.Call call = history.get(id);
        long seqNo;
        long k;
        synchronized (document) {
            seqNo = document.isThere ? document.seqNo : -1;
            k = document.k;
        }
        if (seqNo < 0) {
            call.missing();
        } else {
            call.found(seqNo, 1, k);
        }
    }

    private void write(Document document, String id, boolean hasCondition) {
        // (a condition that mostly holds, since the document was read just now)
        long condition = hasCondition ? Math.max(document.seqNo, 0) : CasHistory.NO_SEQ_NO;
        CasHistory.Call call = history.index(id, condition, hasCondition ? 1 : CasHistory.NO_PRIMARY_TERM);
        boolean created;
        long seqNo;
        synchronized (document) {
            if (hasCondition && !(document.isThere && document.seqNo == condition)) {
                seqNo = -1;
                created = false;
            } else {
                created = !document.isThere;
                seqNo = document.seqNo = numbers.getAndIncrement();
                document.k = call.value();
                document.isThere = true;
            }
        }
        if (seqNo < 0) {
            call.conflict();
        } else {
            call.indexed(seqNo, 1, created);
        }
    }

    private void delete(Document document, String id) {
        CasHistory.Call call = history.delete(id);
        boolean found;
        long seqNo;
        synchronized (document) {
            found = document.isThere;
            seqNo = document.seqNo = numbers.getAndIncrement();
            document.isThere = false;
        }
        call.deleted(seqNo, 1, found);
    }
}
