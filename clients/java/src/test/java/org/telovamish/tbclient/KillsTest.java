package org.telovamish.tbclient;

import static org.junit.Assert.assertEquals;
import static org.junit.Assert.assertTrue;

import java.io.IOException;
import java.math.BigInteger;
import java.nio.file.Path;
import java.util.ArrayList;
import java.util.List;
import java.util.concurrent.ThreadLocalRandom;
import org.junit.Rule;
import org.junit.Test;
import org.junit.rules.TemporaryFolder;

/**
 * A program that opens a file, and its child, are killed amid transfers. The variable KILLS says
 * how often each.
 */
public class KillsTest {
    private static final int KILLS = Integer.parseInt(System.getenv().getOrDefault("KILLS", "5"));
    private static final int COUNT = 50 * KILLS;
    private static final int PAUSE_MAX = 20; // ms before a kill
    private static final int KILLED = 128 + 9; // a status

    @Rule public TemporaryFolder folder = new TemporaryFolder();
    private Path file;
    private Path program;
    private Path made;

    private Process started() throws IOException {
        String path = System.getProperty("java.class.path");
        return new ProcessBuilder("java", "-XX:+UseSerialGC", "-XX:TieredStopAtLevel=1", "-cp",
                path, "org.telovamish.tbclient.Transferring", file.toString(), program.toString(),
                String.valueOf(COUNT), made.toString())
                .redirectOutput(ProcessBuilder.Redirect.INHERIT)
                .redirectError(ProcessBuilder.Redirect.INHERIT)
                .start();
    }

    private int countMade() {
        try {
            return Transferring.madeBy(made).size();
        } catch (IOException why) {
            throw new AssertionError(why);
        }
    }

    /** Kills the program and its child in turn. Returns the last program. */
    private Process killed() throws Exception {
        Process it = started();
        for (int at = 0; at < 2 * KILLS; at++) {
            int least = at * COUNT / (2 * KILLS + 1);
            Process running = it;
            Keepers.until(() -> countMade() > least || !running.isAlive());
            assertTrue("it made " + countMade(), it.isAlive());
            Thread.sleep(ThreadLocalRandom.current().nextInt(PAUSE_MAX));
            if (at % 2 == 0) {
                Keepers.kill(file);
            } else {
                assertEquals(KILLED, it.destroyForcibly().waitFor());
                it = started();
            }
        }
        return it;
    }

    /** The ids of the transfers 1 to COUNT that the ledger has. */
    private static List<BigInteger> found(Client ledger) {
        List<BigInteger> found = new ArrayList<>();
        for (int first = 1; first <= COUNT; first += Layout.ITEMS_MAX) {
            IdBatch ids = new IdBatch(Layout.ITEMS_MAX);
            for (int id = first; id <= COUNT && id < first + Layout.ITEMS_MAX; id++) {
                ids.add(id);
            }
            TransferBatch transfers = ledger.lookupTransfers(ids);
            while (transfers.next()) {
                found.add(UInt128.asBigInteger(transfers.getId()));
            }
        }
        return found;
    }

    /** Each call that returned is there once, nothing is there twice, and no child is left. */
    @Test
    public void kills() throws Exception {
        Path root = folder.getRoot().toPath();
        file = root.resolve("books.tbk");
        made = root.resolve("made");
        program = Keepers.keeper(root, "");
        Process it = killed();
        try {
            it.getOutputStream().close();
            assertEquals(0, it.waitFor());
        } finally {
            it.destroyForcibly();
        }
        Keepers.untilEnded(file);
        assertEquals(COUNT, countMade());
        OpenOptions options = OpenOptions.DEFAULT.withProgram(program).withExisting();
        try (Client ledger = Client.open(file, options)) {
            List<BigInteger> found = found(ledger);
            assertEquals(COUNT, found.size());
            assertEquals(BigInteger.valueOf(COUNT), found.get(COUNT - 1));
            assertEquals(10L * COUNT, Keepers.credited(ledger));
        }
    }
}
