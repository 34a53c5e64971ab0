package org.telovamish.tbclient;

import static org.junit.Assert.assertArrayEquals;
import static org.junit.Assert.assertEquals;
import static org.junit.Assert.assertFalse;
import static org.junit.Assert.assertSame;
import static org.junit.Assert.assertThrows;
import static org.junit.Assert.assertTrue;

import java.math.BigInteger;
import java.nio.file.Path;
import java.time.Duration;
import java.util.ArrayDeque;
import java.util.ArrayList;
import java.util.Deque;
import java.util.HexFormat;
import java.util.List;
import java.util.concurrent.CountDownLatch;
import java.util.concurrent.FutureTask;
import java.util.concurrent.TimeUnit;
import java.util.function.Function;
import org.junit.Rule;
import org.junit.Test;
import org.junit.rules.TemporaryFolder;

/** Sessions over a transport that does what a test says: frames are worked out by hand. */
public class SessionTest {
    private static final BigInteger CLIENT = BigInteger.valueOf(7);
    private static final SessionOptions TWICE = new SessionOptions(2, Duration.ofMillis(1));
    private static final String SEVEN = "07000000000000000000000000000000";
    private static final String REGISTERED = SEVEN + "01000000000000000000000002000000"
            + "00000000010000000000000000000000";
    private static final String DONE = SEVEN + "01000000000000000100000082000000"
            + "00000000020000000000000000000000";
    private static final String COLLISION = SEVEN + "01000000000000000100000082050000"
            + "00000000000000000000000000000000";
    private static final String NO_SESSION = SEVEN + "01000000000000000100000082010000"
            + "00000000000000000000000000000000";
    private static final Transfer SALE =
            Transfer.builder().id(11).debitAccountId(1).creditAccountId(2).amount(5).build();

    /** Replies to each frame by the next of what it was given, and keeps the frames. */
    private static final class Played implements Transport {
        private final Deque<Function<byte[], byte[]>> next = new ArrayDeque<>();
        private final List<byte[]> sent = new ArrayList<>();

        @Override
        public byte[] exchange(byte[] frame, Duration within) {
            sent.add(frame.clone());
            return next.remove().apply(frame);
        }

        Played says(String reply) {
            next.add(frame -> HexFormat.of().parseHex(reply));
            return this;
        }

        Played fails(RuntimeException why) {
            next.add(frame -> { throw why; });
            return this;
        }
    }

    @Rule public TemporaryFolder folder = new TemporaryFolder();

    private final Played played = new Played().says(REGISTERED);
    private final Session session = Session.register(played, CLIENT, TWICE, null);

    private static ReplyLostException lost() {
        return new ReplyLostException("lost on purpose", "", null);
    }

    @Test
    public void aRegisterHasTheFrameOfThePage() {
        String frame = SEVEN + "00000000000000000000000002000000"
                + "0".repeat(32);
        assertEquals(frame, HexFormat.of().formatHex(played.sent.get(0)));
        assertEquals(BigInteger.ONE, session.session());
    }

    @Test
    public void aLostReplyIsAskedForAgainByTheSameBytes() {
        played.fails(lost()).says(DONE);
        assertEquals(List.of(), session.createTransfers(List.of(SALE)));
        assertEquals(3, played.sent.size());
        assertArrayEquals(played.sent.get(1), played.sent.get(2));
        assertEquals(1, session.number());
        assertTrue(session.inDoubt().isEmpty());
    }

    @Test
    public void whatIsLostStaysInDoubtAndNothingElseIsMade() {
        played.fails(lost()).fails(lost());
        assertThrows(ReplyLostException.class, () -> session.createTransfers(List.of(SALE)));
        assertThrows(InDoubtException.class, () -> session.createTransfers(List.of(SALE)));
        assertThrows(InDoubtException.class, () -> session.lookupAccounts(List.of(CLIENT)));
        assertEquals(List.of(SALE), session.inDoubt().orElseThrow().transfers());
        Session resumed = Session.resume(played, session.saved(), TWICE);
        played.says(DONE);
        resumed.retry().requireOk();
        assertArrayEquals(played.sent.get(1), played.sent.get(3));
        assertThrows(NothingInDoubtException.class, resumed::retry);
    }

    @Test
    public void whatIsPreparedStaysInDoubtOverAnotherCall() {
        session.prepare(Operation.CREATE_TRANSFERS, List.of(SALE));
        String pending = session.saved().pending();
        assertThrows(InDoubtException.class, () -> session.lookupAccounts(List.of(CLIENT)));
        assertEquals(pending, session.saved().pending());
    }

    @Test
    public void aCallThatSentNothingIsAsIfItWasNotMade() {
        played.fails(new ClosedException("closed on purpose"));
        assertThrows(ClosedException.class, () -> session.createTransfers(List.of(SALE)));
        assertTrue(session.inDoubt().isEmpty());
        session.prepare(Operation.CREATE_TRANSFERS, List.of(SALE));
        played.fails(new ClosedException("closed on purpose"));
        assertThrows(ClosedException.class, session::retry);
        assertTrue(session.inDoubt().isPresent());
    }

    @Test
    public void aSendingThatCannotBeRepeatedIsLost() {
        played.fails(lost()).fails(new CannotConnectException("nobody on purpose", null));
        ReplyLostException why = assertThrows(
                ReplyLostException.class, () -> session.createTransfers(List.of(SALE)));
        assertTrue(why.mayHaveSent());
        assertTrue(session.inDoubt().isPresent());
    }

    @Test
    public void aFaultOfATransportOfTheCallersKeepsTheRequest() {
        IllegalStateException fault = new IllegalStateException("on purpose");
        played.fails(fault);
        assertSame(fault,
                assertThrows(
                        IllegalStateException.class, () -> session.createTransfers(List.of(SALE))));
        assertTrue(session.inDoubt().isPresent());
    }

    @Test
    public void aRefusalIsNoAnswer() {
        played.says(COLLISION);
        RefusedException why = assertThrows(
                CollisionException.class, () -> session.createTransfers(List.of(SALE)));
        assertEquals(Status.COLLISION, why.status());
        assertEquals(0, session.number());
        assertTrue(session.inDoubt().isPresent());
        played.says(NO_SESSION);
        assertThrows(EvictedException.class, session::retry);
        assertTrue(session.inDoubt().isPresent());
    }

    @Test
    public void whatIsNoReplyIsBad() {
        session.prepare(Operation.CREATE_TRANSFERS, List.of(SALE));
        List<String> wrong = List.of("", DONE.substring(2), REGISTERED,
                DONE.replaceFirst("^07", "08"), DONE.replace("0100000082", "0200000082"),
                DONE.substring(0, 64) + "08" + DONE.substring(66) + "0100000007000000",
                DONE.substring(0, 64) + "08" + DONE.substring(66) + "0000000000000000",
                DONE.substring(0, 64) + "08" + DONE.substring(66) + "00000000ff000000");
        for (String it : wrong) {
            played.says(it);
            assertThrows(it, BadReplyException.class, session::retry);
        }
        played.next.add(frame -> null);
        assertThrows(BadReplyException.class, session::retry);
        played.says(DONE.substring(0, 64) + "08" + DONE.substring(66) + "0000000007000000");
        EventsFailedException why =
                assertThrows(EventsFailedException.class, () -> session.retry().requireOk());
        assertEquals("event 0: flags_are_mutually_exclusive", why.getMessage());
    }

    @Test(timeout = 30_000)
    public void whatItIsIsToldWhileARequestIsOnItsWay() throws Exception {
        CountDownLatch asked = new CountDownLatch(1);
        CountDownLatch answers = new CountDownLatch(1);
        played.next.add(frame -> {
            asked.countDown();
            assertTrue(isThere(answers));
            return HexFormat.of().parseHex(DONE);
        });
        FutureTask<?> call = new FutureTask<>(() -> session.createTransfers(List.of(SALE)));
        new Thread(call).start();
        asked.await();
        Path path = folder.newFolder().toPath().resolve("session.json");
        session.save(path);
        assertEquals(0, session.number());
        assertEquals(BigInteger.ONE, session.session());
        assertEquals(List.of(SALE), session.inDoubt().orElseThrow().transfers());
        assertEquals(session.saved(), Session.load(played, path).saved());
        answers.countDown();
        call.get();
        assertEquals(1, session.number());
    }

    private static boolean isThere(CountDownLatch what) {
        try {
            return what.await(20, TimeUnit.SECONDS);
        } catch (InterruptedException why) {
            throw new IllegalStateException(why);
        }
    }

    @Test
    public void aLimitOfTheCallersEndsAPause() {
        SessionOptions slow = new SessionOptions(5, Duration.ofSeconds(50));
        Session other = Session.resume(played, session.saved(), slow);
        played.fails(new BusyException("busy on purpose"));
        CancelledException why = assertThrows(CancelledException.class,
                () -> other.createTransfers(List.of(SALE), Duration.ofMillis(20)));
        assertTrue(why.mayHaveSent());
        assertTrue(other.inDoubt().isPresent());
    }

    @Test
    public void anInterruptEndsACallAndIsKept() {
        Thread.currentThread().interrupt();
        CancelledException why = assertThrows(
                CancelledException.class, () -> session.createTransfers(List.of(SALE)));
        assertTrue(Thread.interrupted());
        assertFalse(why.mayHaveSent());
        assertTrue(session.inDoubt().isEmpty());
    }

    @Test
    public void wrongArgumentsSendNothing() {
        int sent = played.sent.size();
        List<Transfer> many = new ArrayList<>();
        for (int at = 0; at < 8191; at++) {
            many.add(SALE);
        }
        invalid("transfers", () -> session.createTransfers(many));
        invalid("transfers", () -> session.createTransfers(null));
        invalid("ids[0]", () -> session.lookupAccounts(List.of(BigInteger.TWO.pow(128))));
        List<Object> mixed = List.of(SALE, 1);
        invalid("transfers[1]", () -> session.prepare(Operation.CREATE_TRANSFERS, mixed));
        invalid("operation", () -> session.prepare(null, List.of()));
        invalid("session", () -> session.prepare(Operation.REGISTER, List.of()));
        invalid("client", () -> new Session(played, BigInteger.ZERO, TWICE));
        invalid("attempts", () -> TWICE.withAttempts(0));
        invalid("pause", () -> TWICE.withPause(Duration.ofNanos(-1)));
        invalid("saved.number", () -> resume(1, 4294967296L, ""));
        invalid("saved.pending", () -> resume(1, 0, "0g"));
        invalid("saved.pending", () -> resume(1, 0, null));
        assertEquals(sent, played.sent.size());
    }

    private Session resume(long session, long number, String pending) {
        BigInteger wide = BigInteger.valueOf(session);
        return Session.resume(played, new Saved(CLIENT, wide, number, pending), TWICE);
    }

    private static void invalid(String field, Runnable call) {
        InvalidValueException why = assertThrows(InvalidValueException.class, call::run);
        assertEquals(field, why.field());
        assertFalse(why.mayHaveSent());
    }

    @Test
    public void theLastNumberIsTheLast() {
        Session last = resume(1, 4294967295L, "");
        invalid("number", () -> last.createTransfers(List.of(SALE)));
    }
}
