import casbench.CasHistory;
import casbench.CasHistory.Call;
import casbench.CasHistory.Op;
import casbench.CasHistory.Operation;

import java.io.UncheckedIOException;
import java.nio.file.Files;
import java.nio.file.Path;
import java.nio.file.Paths;
import java.util.HashSet;
import java.util.List;
import java.util.Set;

/** Small recordings, each by its name: {@code Cases NAME FILE WORD..}. A case prints its results. */
public final class Cases {
    private Cases() {}

    public static void main(String[] words) throws Exception {
        Path file = Paths.get(words[1]);
        switch (words[0]) {
            case "lines":
                lines(file);
                break;
            case "endings":
                endings(file);
                break;
            case "refusals":
                refusals(file);
                break;
            case "flush":
                flush(file);
                break;
            case "full":
                full(file, new CasHistory.Options().mostEvents(7), "a", "b", "c", "b");
                break;
            case "strict":
                full(file, new CasHistory.Options().mostEvents(7).strict(), "a", "b", "c", "b");
                break;
            case "rotated":
                full(file, new CasHistory.Options().mostEvents(6).rotate(), "a", "b", "c", "b", "d", "e");
                break;
            case "disk":
                disk(file);
                break;
            default:
                verdict(words[0], file, List.of(words).subList(2, words.length).toArray(new String[0]));
        }
    }

    /** All members that the line of a call can have, and notes. */
    private static void lines(Path file) {
        try (CasHistory history = CasHistory.open(file)) {
            history.call(new Operation(Op.INDEX, "a").condition(4, 2).value(-1).shard(3).client("x\"y").node("node-1")).indexed(5, 2, false);
            history.index("b", CasHistory.NO_SEQ_NO, CasHistory.NO_PRIMARY_TERM).indexed(0, 1, true);
            history.note("a node \u00e4 \ud83d stops");
            history.note("and goes on");
            history.get("\u00e4\u0000\ud83d\ude00\\").found(0, 1, -2);
            history.create("d".repeat(512)).conflict();
            history.delete("b", 0, 1).deleted(1, 1, true);
            history.delete("none").deleted(2, 1, false);
            history.get("none").missing();
            history.note("at the end");
            history.get("open");
        }
    }

    /** Calls end once, and those that are open at the end are lost. */
    private static void endings(Path file) {
        CasHistory history = CasHistory.open(file);
        Call late = history.index("late");
        Call open = history.index("open");
        Call none = history.index("none");
        System.out.println(late.unknown() + " " + late.indexed(0, 1, true) + " " + late.refused());
        System.out.println(history.create("void").refused());
        System.out.println(none.indexed(-2, 0, true));
        history.close();
        System.out.println(open.indexed(1, 1, true) + " " + history.late());
        Call after = history.index("after");
        System.out.println(after.isRecorded() + " " + after.indexed(2, 1, true) + " " + history.leftOut());
        history.close();
    }

    /** What no history can have. */
    private static void refusals(Path file) {
        CasHistory history = CasHistory.open(file);
        history.call(new Operation(Op.GET, "a").shard(1));
        List<Runnable> wrong = List.of(
            () -> history.get(""),
            () -> history.get(null),
            () -> history.get("d".repeat(513)),
            () -> history.get("\ud83d"),
            () -> history.get("a"),
            () -> history.index("b", 1, 0),
            () -> history.index("b", -2, 1),
            () -> history.index("b", -1, 1),
            () -> new Operation(Op.CREATE, "b").condition(1, 1),
            () -> new Operation(Op.GET, "b").value(1),
            () -> new Operation(Op.GET, "b").shard(1024),
            () -> new Operation(Op.GET, "b").client(""),
            () -> new Operation(Op.GET, "b").node("d".repeat(257)),
            () -> history.get("c").conflict(),
            () -> history.get("c").indexed(1, 1, true),
            () -> history.index("c").found(1, 1, 1),
            () -> history.delete("c").missing(),
            () -> new CasHistory.Options().mostEvents(1_048_577)
        );
        int refused = 0;
        for (Runnable it : wrong) {
            try {
                it.run();
            } catch (IllegalArgumentException thrown) {
                refused++;
            }
        }
        System.out.println(refused + " of " + wrong.size());
        try {
            CasHistory.open(file);
        } catch (UncheckedIOException thrown) {
            System.out.println(thrown.getMessage().contains("is there already"));
        }
        history.close();
    }

    /** Each line is in the file when the method returns that recorded it. */
    private static void flush(Path file) throws Exception {
        try (CasHistory history = CasHistory.open(file, new CasHistory.Options().flush())) {
            for (int i = 0; i < 100; i++) {
                Call call = history.index("a");
                System.out.print(Files.lines(file).count() + " ");
                call.indexed(i, 1, i == 0);
                System.out.print(Files.lines(file).count() + " ");
            }
        }
    }

    /** Writes of these documents without a condition, which go on when a file is full; the first one is open until the end. */
    private static void full(Path file, CasHistory.Options options, String... ids) throws Exception {
        CasHistory history = CasHistory.open(file, options);
        Call open = null;
        Set<String> made = new HashSet<>();
        for (int i = 0; i < ids.length; i++) {
            Call call = history.index(ids[i]);
            open = i == 0 ? call : open;
            System.out.print(call.isRecorded() + " ");
            if (i != 0) {
                call.indexed(i, 1, made.add(ids[i]));
            }
        }
        System.out.println(open.indexed(0, 1, true) + " " + history.leftOut());
        history.close();
        for (Path it : history.files()) {
            System.out.println(it.getFileName());
        }
    }

    /** Records until the file can't grow. */
    private static void disk(Path file) throws Exception {
        CasHistory history = CasHistory.open(file, new CasHistory.Options().flush().rotate());
        Call call = history.index("a");
        long calls = 0;
        for (; call.isRecorded() && calls < 1_000_000; calls++) {
            call.indexed(calls, 1, calls == 0);
            call = history.index("a");
        }
        try {
            history.close();
        } catch (UncheckedIOException thrown) {
            System.out.println(calls + " " + thrown.getMessage());
        }
    }

    /** Asserts that a small recording is explained, by these options. */
    private static void verdict(String name, Path file, String[] options) {
        CasHistory history = CasHistory.open(file);
        if (name.equals("stale")) {
            history.index("a").indexed(0, 1, true);
            history.index("a").indexed(1, 1, false);
            history.get("a").found(0, 1, 0);
        } else if (name.equals("undecided")) {
            // (each document needs its lost write, and both of these the only number that is free)
            history.index("a").indexed(0, 1, true);
            history.index("b").indexed(1, 1, true);
            history.index("a").unknown();
            history.index("b").unknown();
            history.index("a", 0, 1).conflict();
            history.index("b", 1, 1).conflict();
            history.index("a").indexed(3, 1, false);
            history.index("b").indexed(4, 1, false);
        } else if (!name.equals("nothing")) {
            history.index("a").indexed(0, 1, true);
            history.get("a").found(0, 1, 0);
        }
        try {
            history.assertExplained(options);
            System.out.println("passed");
        } catch (AssertionError failure) {
            System.out.println("failed: " + failure.getMessage());
        }
    }
}
