package casbench.examples;

import static org.junit.jupiter.api.Assertions.assertThrows;
import static org.junit.jupiter.api.Assertions.assertTrue;
import static org.junit.jupiter.api.Assumptions.assumeTrue;

import casbench.CasHistory;
import casbench.examples.ReplicatedMap.Fault;

import java.nio.file.Path;
import org.junit.jupiter.api.Test;
import org.junit.jupiter.api.io.TempDir;
import org.junit.jupiter.params.ParameterizedTest;
import org.junit.jupiter.params.provider.EnumSource;

/** A replicated map keeps the compare-and-set promise, and each of its faults is found. Its reads are linearizable: it is checked strictly. */
class ReplicatedMapTest {
    @TempDir
    Path folder;

    @Test
    void keepsThePromise() throws InterruptedException {
        try (CasHistory history = Demonstration.record(folder.resolve("right.ndjson"), Fault.NONE)) {
            history.assertExplained("--at-least", "1000");
        }
    }

    @ParameterizedTest
    @EnumSource(mode = EnumSource.Mode.EXCLUDE, names = "NONE")
    void eachFaultIsFound(Fault fault) throws InterruptedException {
        assumeTrue(CasHistory.hasProgram(), "casbench isn't here");
        try (CasHistory history = Demonstration.record(folder.resolve(fault + ".ndjson"), fault)) {
            AssertionError found = assertThrows(AssertionError.class, () -> history.assertExplained());
            assertTrue(found.getMessage().contains("refuted"), found.getMessage());
        }
    }
}
