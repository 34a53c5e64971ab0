package org.telovamish.tbclient;

import static org.junit.Assert.assertEquals;
import static org.junit.Assert.assertFalse;
import static org.junit.Assert.assertSame;
import static org.junit.Assert.assertThrows;
import static org.junit.Assert.assertTrue;

import java.io.IOException;
import java.nio.file.Files;
import java.nio.file.Path;
import java.time.Duration;
import java.util.ArrayList;
import java.util.Arrays;
import java.util.Collections;
import java.util.List;
import java.util.concurrent.CancellationException;
import java.util.concurrent.CompletableFuture;
import java.util.concurrent.CountDownLatch;
import java.util.concurrent.TimeUnit;
import java.util.function.Supplier;
import org.junit.Before;
import org.junit.Rule;
import org.junit.Test;
import org.junit.rules.TemporaryFolder;

/** {@link Client#open}: a ledger in a file; {@link Client#connect}: the same over sockets. */
public class OpeningTest {
    private static final long MINUTES = 2; // that something may take on a busy computer
    private static final String[] READING = {"echo 'tbd: reading a.tbk, 64 of 900 MB' >&2",
            "echo 'tbd: reading a.tbk, 128 of 900 MB' >&2"};

    @Rule public TemporaryFolder folder = new TemporaryFolder();
    private Path root;
    private Path file;
    private OpenOptions options;

    @Before
    public void place() throws IOException {
        root = folder.getRoot().toPath();
        file = root.resolve("books.tbk");
        options = with("");
    }

    /** Options with a program that fails as it is told. */
    private OpenOptions with(String fail) throws IOException {
        return of(Keepers.keeper(root, fail));
    }

    private static OpenOptions of(Path program) {
        return OpenOptions.DEFAULT.withProgram(program)
                .withReport(line -> {})
                .withLockTimeout(Duration.ZERO);
    }

    private static String[] lines(String[] first, String... more) {
        List<String> all = new ArrayList<>(Arrays.asList(first));
        all.addAll(Arrays.asList(more));
        return all.toArray(new String[0]);
    }

    private static void move(Client ledger) {
        assertEquals(0, ledger.createTransfers(Keepers.sale(Ids.id())).getLength());
    }

    /** A file is made, and found again; what a start did is reported. */
    @Test
    public void made() throws IOException {
        List<String> said = Collections.synchronizedList(new ArrayList<>());
        OpenOptions given = options.withReport(said::add);
        Client ledger = Client.open(file, given);
        assertEquals(0, ledger.createAccounts(Keepers.accounts()).getLength());
        move(ledger);
        ledger.close();
        ledger.close();
        assertThrows(ClosedException.class, () -> Keepers.credited(ledger));
        assertEquals(List.of(), Keepers.serving(file));
        try (Client again = Client.open(file, given.withExisting())) {
            assertEquals(10, Keepers.credited(again));
        }
        assertEquals(List.of("tbd: made " + file), said);
    }

    /** A missing file is a fault with {@code withExisting}, and is not made. */
    @Test
    public void existing() {
        ProgramEndedException why = assertThrows(
                ProgramEndedException.class, () -> Client.open(file, options.withExisting()));
        assertEquals("Device", why.told());
        assertEquals(1, why.status());
        assertFalse(why.mayHaveSent());
        assertFalse(Files.exists(file));
    }

    /** Options that are out of their range. */
    @Test
    public void wrongOptions() {
        List<Supplier<OpenOptions>> wrong = List.of(()
                                                            -> options.withRules(65, 1),
                ()
                        -> options.withRules(0, 1),
                ()
                        -> options.withRules(64, 3),
                ()
                        -> options.withLockTimeout(Duration.ofSeconds(-1)),
                ()
                        -> options.withAheadMax(Duration.ofSeconds(-1)),
                ()
                        -> options.withReport(null),
                () -> options.withProgress(null), () -> options.withProgram(null));
        for (Supplier<OpenOptions> it : wrong) {
            assertThrows(InvalidValueException.class, it::get);
        }
        assertThrows(InvalidValueException.class, () -> Client.open(null));
        assertThrows(InvalidValueException.class, () -> Client.open(Path.of("")));
        assertThrows(InvalidValueException.class, () -> Client.open(file, null));
    }

    /** A program that is missing or does not start says so. */
    @Test
    public void noProgram() throws IOException {
        CannotStartException why = assertThrows(
                CannotStartException.class, () -> Client.open(file, of(Path.of("/nowhere/tbd"))));
        assertTrue(why.getMessage().contains("/nowhere/tbd is no program"));
        assertTrue(why.getMessage().contains("install the package telovamish"));
        assertFalse(why.mayHaveSent());
        Path wrong = Keepers.script(root, "wrong");
        Files.writeString(wrong, "#!/nowhere/sh\n");
        assertThrows(CannotStartException.class, () -> Client.open(file, of(wrong)));
    }

    /** The program is found on PATH, by the variable TBD, and next to this client. */
    @Test
    public void foundProgram() throws Exception {
        Path program = Keepers.keeper(root, "Full:8:99");
        Path classes =
                Path.of(Client.class.getProtectionDomain().getCodeSource().getLocation().toURI());
        Path copy = root.resolve("classes");
        try (var all = Files.walk(classes)) {
            for (Path it : all.toList()) {
                Files.copy(it, copy.resolve(classes.relativize(it)));
            }
        }
        String tests = System.getProperty("java.class.path");
        for (String where : new String[] {"PATH", "TBD", "next"}) {
            ProcessBuilder it = new ProcessBuilder("java", "-cp", copy + ":" + tests,
                    "org.telovamish.tbclient.OpeningTest$Opened", file.toString());
            it.environment().remove("TBD");
            if (where.equals("PATH")) {
                it.environment().merge("PATH", root.toString(), (old, more) -> more + ":" + old);
            } else if (where.equals("TBD")) {
                it.environment().put("TBD", program.toString());
            } else {
                Files.copy(program, copy.resolve("tbd"));
            }
            assertEquals(where, 0, it.inheritIO().start().waitFor());
        }
    }

    /** Opens a file, without options but for what is reported. */
    static final class Opened {
        private Opened() {}

        public static void main(String[] words) {
            Client.open(Path.of(words[0]), OpenOptions.DEFAULT.withReport(line -> {})).close();
        }
    }

    /** How much was read of a large file is reported, and that all was. */
    @Test
    public void progress() throws IOException {
        Path slow = Keepers.script(root, "slow", lines(READING, Keepers.standIn()));
        List<String> found = Collections.synchronizedList(new ArrayList<>());
        OpenOptions given = of(slow).withProgress((done, size) -> found.add(done + "/" + size));
        Client.open(file, given).close();
        assertEquals(List.of("64/900", "128/900", "900/900"), found);
    }

    /** A cancel and an interrupt end an opening, and leave no child. */
    @Test
    public void givenUp() throws Exception {
        Path slow = Keepers.script(root, "slow", lines(READING, "exec sleep 1000"));
        CountDownLatch read = new CountDownLatch(1);
        OpenOptions given = of(slow).withProgress((done, size) -> read.countDown());
        CompletableFuture<Client> opening = Client.openAsync(file, given);
        assertTrue(read.await(MINUTES, TimeUnit.MINUTES));
        opening.cancel(true);
        assertThrows(CancellationException.class, opening::join);
        Keepers.untilEnded(file);
        Thread here = Thread.currentThread();
        OpenOptions interrupted = of(slow).withProgress((done, size) -> here.interrupt());
        CancelledException why =
                assertThrows(CancelledException.class, () -> Client.open(file, interrupted));
        assertFalse(why.mayHaveSent());
        assertTrue(Thread.interrupted());
        Keepers.untilEnded(file);
    }

    /** An opening that nobody waits for. */
    @Test
    public void async() {
        try (Client ledger = Client.openAsync(file, options).join()) {
            assertEquals(0, ledger.createAccounts(Keepers.accounts()).getLength());
            var calls = new ArrayList<CompletableFuture<CreateTransferResultBatch>>();
            for (int at = 0; at < 100; at++) {
                calls.add(ledger.createTransfersAsync(Keepers.sale(Ids.id())));
            }
            calls.forEach(it -> assertEquals(0, it.join().getLength()));
            assertEquals(1000, Keepers.credited(ledger));
        }
    }

    private void firstReply(String place) throws IOException {
        try (Client ledger = Client.open(file, with("SIGKILL:" + place + ":3"))) {
            ledger.createAccounts(Keepers.accounts());
            for (int at = 0; at < 6; at++) {
                move(ledger); // `exists` would be the reply to other bytes, or in another session
            }
            assertEquals(60, Keepers.credited(ledger));
        }
    }

    /** A call gets its first reply, of a child that is killed when it has read the request. */
    @Test
    public void killedAtRead() throws IOException {
        firstReply("read");
    }

    /** The same, when a part of its entry is in the file. */
    @Test
    public void killedAtHalf() throws IOException {
        firstReply("half");
    }

    /** The same, when its entry is in the file. */
    @Test
    public void killedAtKept() throws IOException {
        firstReply("kept");
    }

    /** The same, when a part of its reply was written. */
    @Test
    public void killedAtPart() throws IOException {
        firstReply("part");
    }

    /** The same, when its reply was written. */
    @Test
    public void killedAtTold() throws IOException {
        firstReply("told");
    }

    /** A restart makes no other ledger: in another one each id would be accepted again. */
    @Test
    public void noOtherLedger() throws IOException {
        Path old = root.resolve("old.tbk");
        try (Client ledger = Client.open(file, options)) {
            ledger.createAccounts(Keepers.accounts());
            Files.move(file, old);
            Keepers.kill(file);
            ProgramEndedException why =
                    assertThrows(ProgramEndedException.class, () -> move(ledger));
            assertEquals("Device", why.told());
            assertFalse(Files.exists(file));
            Files.move(old, file);
            move(ledger);
        }
    }

    /** A child that is killed at each start. */
    @Test
    public void killedAtEachStart() throws IOException {
        Path killed = Keepers.script(root, "killed", "kill -9 $$");
        CannotStartException why =
                assertThrows(CannotStartException.class, () -> Client.open(file, of(killed)));
        assertTrue(why.getMessage(), why.getMessage().contains("signal 9, each of 5 times"));
    }

    /** A ledger that is closed while it is read again. */
    @Test
    public void closedWhileRead() throws Exception {
        Path once = root.resolve("once");
        Path slow = Keepers.script(root, "slow", "test -e " + once + " && read it", "touch " + once,
                Keepers.standIn());
        Client ledger = Client.open(file, of(slow));
        ledger.createAccounts(Keepers.accounts());
        Keepers.kill(file);
        Keepers.untilEnded(file);
        var call = ledger.createTransfersAsync(Keepers.sale(Ids.id()));
        Keepers.until(() -> {
            try {
                return !Keepers.serving(file).isEmpty();
            } catch (IOException why) {
                throw new AssertionError(why);
            }
        });
        ledger.close();
        assertTrue(call.isCompletedExceptionally());
        Keepers.untilEnded(file);
    }

    /** A file that is open elsewhere, and one that is released in time. */
    @Test
    public void locked() throws Exception {
        Client ledger = Client.open(file, options);
        long owner = Keepers.serving(file).get(0);
        LockedException why = assertThrows(LockedException.class, () -> Client.open(file, options));
        assertEquals(owner, why.owner().orElseThrow());
        assertEquals(4, why.status());
        assertEquals("Locked", why.told());
        assertTrue(why.getMessage(),
                why.getMessage().contains(
                        "started by process " + ProcessHandle.current().pid() + " ("));
        ledger.createAccounts(Keepers.accounts());
        OpenOptions patient = options.withLockTimeout(Duration.ofMinutes(MINUTES));
        CompletableFuture<Client> next = Client.openAsync(file, patient);
        ledger.close(); // the child of a program that was killed ends a moment after it
        try (Client it = next.get(MINUTES, TimeUnit.MINUTES)) {
            move(it);
        }
    }

    /** Ctrl-C at a terminal goes to all of its processes: the child serves on. */
    @Test
    public void interrupted() throws Exception {
        try (Client ledger = Client.open(file, options)) {
            ledger.createAccounts(Keepers.accounts());
            long child = Keepers.serving(file).get(0);
            for (String signal : List.of("-INT", "-QUIT", "-HUP", "-TSTP")) {
                String[] words = {"kill", signal, Long.toString(child)};
                assertEquals(0, new ProcessBuilder(words).start().waitFor());
            }
            move(ledger);
            assertEquals(List.of(child), Keepers.serving(file));
        }
    }

    /** A file that is no ledger, and one of other rules. */
    @Test
    public void refused() throws IOException {
        Path other = root.resolve("other");
        Files.writeString(other, "no ledger, and not empty");
        Client.open(file, options).close();
        for (Path it : List.of(other, file)) {
            ProgramEndedException why = assertThrows(
                    ProgramEndedException.class, () -> Client.open(it, options.withRules(2, 1)));
            assertEquals(it == other ? "NotAJournal" : "OtherRules", why.told());
            assertEquals(it == other ? 5 : 7, why.status());
            assertTrue(why.fault().startsWith(why.told()));
        }
    }

    /** A fault amid the service is passed on, and the next call starts the child again. */
    @Test
    public void faultAmidService() throws IOException {
        try (Client ledger = Client.open(file, with("Full:8:3"))) {
            ledger.createAccounts(Keepers.accounts());
            TransferBatch sale = Keepers.sale(Ids.id());
            ProgramEndedException why =
                    assertThrows(ProgramEndedException.class, () -> ledger.createTransfers(sale));
            assertEquals("Full", why.fault());
            assertEquals(8, why.status());
            assertTrue(why.mayHaveSent());
            assertEquals(0, ledger.createTransfers(sale).getLength());
        }
    }

    /** What is no reply ends the child. */
    @Test
    public void noReply() throws IOException {
        Path wrong = Keepers.script(root, "wrong", "echo 'tbd: ready: commit 0, time 0' >&2",
                "yes 'no reply' | head -c 100", "exec cat > /dev/null");
        try (Client ledger = Client.open(file, of(wrong))) {
            assertThrows(BadReplyException.class, () -> ledger.createAccounts(Keepers.accounts()));
        }
    }

    /** A ledger whose time is ahead of this computer's clock. */
    @Test
    public void timeAhead() throws IOException {
        long time = Moments.wallClock() + 3600 * Moments.SECOND;
        Path ahead = Keepers.script(root, "ahead",
                "echo 'tbd: ready: commit 1, time " + time + "' >&2", "exec cat > /dev/null");
        ClockJumpedException why =
                assertThrows(ClockJumpedException.class, () -> Client.open(file, of(ahead)));
        assertTrue(why.getMessage(), why.getMessage().contains("PT59M"));
        assertEquals(List.of(), Keepers.serving(file));
        for (Duration most : new Duration[] {Duration.ofHours(2), null}) {
            Client.open(file, of(ahead).withAheadMax(most)).close();
        }
    }

    /** The child ends with the program, however that ends. */
    @Test
    public void endOfTheProgram() throws Exception {
        for (String how : new String[] {"end", "exit", "halt", "throw"}) {
            Process it = new ProcessBuilder("java", "-cp", System.getProperty("java.class.path"),
                    "org.telovamish.tbclient.OpeningTest$Ending", file.toString(),
                    options.program().toString(), how)
                                 .redirectError(ProcessBuilder.Redirect.DISCARD)
                                 .start();
            assertEquals(how, how.equals("throw") ? 1 : 0, it.waitFor());
            Keepers.untilEnded(file);
        }
    }

    /** Opens a file, and ends without closing it. */
    static final class Ending {
        private Ending() {}

        public static void main(String[] words) {
            Client ledger = Client.open(Path.of(words[0]), of(Path.of(words[1])));
            ledger.createAccounts(Keepers.accounts());
            switch (words[2]) {
                case "exit":
                    System.exit(0);
                    break;
                case "halt":
                    Runtime.getRuntime().halt(0);
                    break;
                case "throw":
                    throw new IllegalStateException();
                default:
            }
        }
    }

    /** Each step is what the clock and the time that goes by rise by. */
    @Test
    public void moments() {
        long[][][] rows = {{{5, 5}}, {{5, 5}, {-50, 1}, {0, 9}}, {{5000, 2000}, {1000000, 1000}}};
        long[][] wanted = {{105}, {105, 105, 105}, {2102, 3103}};
        for (int row = 0; row < rows.length; row++) {
            long[] at = {100, 7};
            Moments moments = new Moments(() -> at[0], () -> at[1]);
            for (int step = 0; step < rows[row].length; step++) {
                at[0] += rows[row][step][0];
                at[1] += rows[row][step][1];
                assertEquals(wanted[row][step], moments.next());
            }
            moments.goOn(9000000);
            moments.goOn(8000000);
            assertEquals(9000000, moments.next());
        }
    }

    /** The time that the computer slept goes by too. */
    @Test
    public void sleep() {
        long[] at = {5 * Moments.SECOND, 7};
        Moments.Running running = new Moments.Running(() -> at[0], () -> at[1]);
        assertEquals(5 * Moments.SECOND, running.getAsLong());
        at[0] += 2 * Moments.SECOND;
        at[1] += 2;
        assertEquals(7 * Moments.SECOND, running.getAsLong());
        at[0] += Moments.SECOND;
        at[1] += 3601;
        long most = 3608 * Moments.SECOND;
        assertTrue(running.getAsLong() <= most && running.getAsLong() > most - 3 * Moments.SECOND);
    }

    /** The same client over sockets. */
    @Test
    public void connect() {
        try (Client ledger = Client.connect("127.0.0.1:3001,./ledger.sock")) {
            assertSame(Client.class, ledger.getClass());
        }
        assertThrows(InvalidValueException.class, () -> Client.connect(""));
        assertThrows(InvalidValueException.class, () -> Client.connect(null));
    }
}
