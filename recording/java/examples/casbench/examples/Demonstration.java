package casbench.examples;

import casbench.CasHistory;
import casbench.examples.ReplicatedMap.Fault;
import casbench.examples.ReplicatedMap.Version;

import java.nio.file.Path;
import java.nio.file.Paths;
import java.util.ArrayList;
import java.util.List;
import java.util.Random;

/**
 * Eight threads that read and write a {@link ReplicatedMap}, recorded: {@code Demonstration FILE [FAULT]}. Each line of the recorder stands
 * beside the call that it is of.
 */
public final class Demonstration {
    private static final int THREADS = 8;
    private static final int CALLS = 500;
    private static final int DOCUMENTS = 4;

    private final ReplicatedMap map;
    private final CasHistory history;

    private Demonstration(ReplicatedMap map, CasHistory history) {
        this.map = map;
        this.history = history;
    }

    public static void main(String[] words) throws InterruptedException {
        Fault fault = words.length > 1 ? Fault.valueOf(words[1]) : Fault.NONE;
        record(Paths.get(words[0]), fault).close();
    }

    /** Records a load on a map with this fault. The history isn't closed. */
    public static CasHistory record(Path file, Fault fault) throws InterruptedException {
        CasHistory history = CasHistory.open(file);
        Demonstration demonstration = new Demonstration(new ReplicatedMap(fault), history);
        List<Thread> threads = new ArrayList<>();
        for (int i = 0; i < THREADS; i++) {
            int seed = i;
            threads.add(new Thread(() -> demonstration.run(new Random(seed))));
        }
        threads.forEach(Thread::start);
        for (Thread thread : threads) {
            thread.join();
        }
        return history;
    }

    private void run(Random random) {
        for (int i = 0; i < CALLS; i++) {
            String id = "d" + random.nextInt(DOCUMENTS);
            switch (random.nextInt(8)) {
                case 0:
                    index(id, CasHistory.NO_SEQ_NO, CasHistory.NO_PRIMARY_TERM);
                    break;
                case 1:
                    create(id);
                    break;
                case 2:
                    delete(id);
                    break;
                default:
                    swap(id);
            }
            if (random.nextInt(100) == 0) {
                history.note("another copy becomes the primary");
                map.promote();
            }
        }
    }

    /** Reads the document, and writes it under the condition of what was read. */
    private void swap(String id) {
        Version version = get(id);
        Thread.yield();
        if (version != null) {
            index(id, version.seqNo, version.primaryTerm);
        }
    }

    private Version get(String id) {
        CasHistory.Call call = history.get(id);
        Version version = map.get(id);
        if (version == null) {
            call.missing();
        } else {
            call.found(version.seqNo, version.primaryTerm, (Long) version.value);
        }
        return version;
    }

    private void index(String id, long ifSeqNo, long ifPrimaryTerm) {
        CasHistory.Call call = history.index(id, ifSeqNo, ifPrimaryTerm);
        ended(call, map.write(id, call.value(), ifSeqNo, ifPrimaryTerm));
    }

    private void create(String id) {
        CasHistory.Call call = history.create(id);
        ended(call, map.create(id, call.value()));
    }

    private void delete(String id) {
        CasHistory.Call call = history.delete(id);
        Version version = map.write(id, null, CasHistory.NO_SEQ_NO, CasHistory.NO_PRIMARY_TERM);
        call.deleted(version.seqNo, version.primaryTerm, version.replaces);
    }

    private static void ended(CasHistory.Call call, Version version) {
        if (version == null) {
            call.conflict();
        } else {
            call.indexed(version.seqNo, version.primaryTerm, !version.replaces);
        }
    }
}
