package casbench.examples;

import java.util.ArrayList;
import java.util.HashMap;
import java.util.List;
import java.util.Map;

/**
 * A map of versioned documents on three copies, one of which is the primary. A write takes the next number of the primary; a write under a
 * condition is performed only if the document's last change has that number and term. It goes wrong as its fault says.
 */
public final class ReplicatedMap {
    /** What the map does wrong. */
    public enum Fault {
        /** Nothing: writes are on all copies before they are acknowledged, and gets are answered by the primary. */
        NONE,
        /** Gets are answered by any copy, and copies get a write only with the next one. */
        STALE_READS,
        /** A write is acknowledged before it is on the other copies, and is lost if another one becomes the primary. */
        LOST_WRITES,
        /** Conditions aren't compared. */
        UNCHECKED_CONDITIONS,
        /** A write may take the number of the one before it. */
        NUMBERS_TWICE
    }

    /** A version of a document: its number and term, and its value, which is null if the document was deleted. */
    public static final class Version {
        public final long seqNo;
        public final long primaryTerm;
        public final Object value;
        /** Whether the document was there before. */
        public final boolean replaces;

        private Version(long seqNo, long primaryTerm, Object value, boolean replaces) {
            this.seqNo = seqNo;
            this.primaryTerm = primaryTerm;
            this.value = value;
            this.replaces = replaces;
        }
    }

    private static final int COPIES = 3;
    private static final int EVERY = 50;

    private final Fault fault;
    private final List<Map<String, Version>> copies = new ArrayList<>();
    private final Map<String, Version> delayed = new HashMap<>();
    private int primary;
    private long term = 1;
    private long nextSeqNo;
    private long gets;
    private long writes;

    public ReplicatedMap(Fault fault) {
        this.fault = fault;
        for (int i = 0; i < COPIES; i++) {
            copies.add(new HashMap<>());
        }
    }

    /** The document's version, or null if it isn't there. */
    public synchronized Version get(String id) {
        int copy = fault == Fault.STALE_READS ? (int) (gets++ % COPIES) : primary;
        Version version = copies.get(copy).get(id);
        return version == null || version.value == null ? null : version;
    }

    /** Writes a value, null to delete; a condition of -2 and 0 is none. Returns the new version, or null if the condition isn't met. */
    public synchronized Version write(String id, Object value, long ifSeqNo, long ifPrimaryTerm) {
        Version last = copies.get(primary).get(id);
        boolean isThere = last != null && last.value != null;
        boolean isMet = ifPrimaryTerm == 0 || isThere && last.seqNo == ifSeqNo && last.primaryTerm == ifPrimaryTerm;
        if (!isMet && fault != Fault.UNCHECKED_CONDITIONS) {
            return null;
        }
        return performed(id, value, isThere);
    }

    /** Writes a value if the document isn't there. Returns the new version, or null. */
    public synchronized Version create(String id, Object value) {
        return get(id) == null ? performed(id, value, false) : null;
    }

    private Version performed(String id, Object value, boolean isThere) {
        boolean isTwice = fault == Fault.NUMBERS_TWICE && ++writes % EVERY == 0;
        Version version = new Version(isTwice ? nextSeqNo - 1 : nextSeqNo++, term, value, isThere);
        if (fault == Fault.STALE_READS || fault == Fault.LOST_WRITES) {
            replicate();
            copies.get(primary).put(id, version);
            delayed.put(id, version);
        } else {
            copies.forEach(it -> it.put(id, version));
        }
        return version;
    }

    /** Puts on the other copies what the primary acknowledged before. */
    private void replicate() {
        copies.forEach(it -> it.putAll(delayed));
        delayed.clear();
    }

    /** Makes another copy the primary, under a new term; numbers go on behind the last one that it has. */
    public synchronized void promote() {
        if (fault != Fault.LOST_WRITES) {
            replicate();
        }
        delayed.clear();
        primary = (primary + 1) % COPIES;
        term++;
        long last = copies.get(primary).values().stream().mapToLong(it -> it.seqNo).max().orElse(-1);
        nextSeqNo = last + 1;
        // (the old primary takes what the new one has)
        Map<String, Version> state = copies.get(primary);
        copies.replaceAll(it -> it == state ? it : new HashMap<>(state));
    }
}
