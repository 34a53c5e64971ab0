package org.telovamish.tbclient;

import java.math.BigInteger;
import java.util.List;
import java.util.Set;
import java.util.function.Supplier;

/** A thread that serves calls over a session, which it registers when it needs one. */
final class Worker extends Thread {
    private static final Set<String> FORBIDDEN = Set.of("NotAllowed", "ClientNotAllowed");
    private static final SessionOptions ONCE = SessionOptions.DEFAULT.withAttempts(1);

    private final Pool pool;
    private final Transport transport;
    private final Supplier<BigInteger> ids;
    private Session session;
    private Pool.Patience absence = new Pool.Patience(); // with a server that is not there

    /** What a reply says, and whether its request may have been executed before. */
    private record Said(Answer answer, boolean isDoubtful) {}

    Worker(Pool pool, Transport transport, Supplier<BigInteger> ids) {
        super("tbclient");
        setDaemon(true);
        this.pool = pool;
        this.transport = transport;
        this.ids = ids;
    }

    @Override
    public void run() {
        while (pool.await()) {
            try {
                registered();
            } catch (ClientException why) {
                if (mayCome(why)) {
                    pool.rest(absence.next(why), why);
                } else {
                    session = null;
                    fail(pool.take(), why);
                }
                continue;
            }
            List<Call> batch = pool.take();
            if (!batch.isEmpty()) {
                serve(batch);
            }
        }
    }

    private void serve(List<Call> batch) {
        Operation operation = batch.get(0).operation;
        List<byte[]> bodies = batch.stream().map(it -> it.body).toList();
        try {
            byte[] body = Joint.body(bodies);
            Said said = ask(operation, body, false);
            Answer answer = said.answer();
            if (said.isDoubtful() && Joint.isCreate(operation)) {
                answer = Joint.settled(body, answer, (to, of) -> ask(to, of, true).answer());
            }
            absence = new Pool.Patience();
            pool.note(null);
            List<Answer> found = Joint.split(operation, bodies, answer);
            for (int at = 0; at < batch.size(); at++) {
                batch.get(at).future.complete(found.get(at));
            }
        } catch (ClientException why) {
            leaveIfInDoubt();
            if (mayCome(why)) {
                pool.giveBack(batch);
                pool.rest(absence.next(why), why);
            } else {
                fail(batch, why);
            }
        } catch (RuntimeException | Error why) { // no caller waits for ever
            session = null;
            fail(batch, why);
        }
    }

    private static void fail(List<Call> batch, Throwable why) {
        batch.forEach(it -> it.future.completeExceptionally(why));
    }

    /** Gives a session up whose request would be sent in place of the next one. */
    private void leaveIfInDoubt() {
        if (session != null && session.session().signum() > 0 && session.inDoubt().isPresent()) {
            session = null;
        }
    }

    /**
     * What the reply to a request says. A {@link NotSentException} says that it was never executed.
     */
    private Said ask(Operation operation, byte[] body, boolean wasDoubtful) {
        boolean isDoubtful = wasDoubtful;
        boolean isGone = false; // whether a sending in this session may have been executed
        Pool.Patience waits = new Pool.Patience();
        while (true) {
            try {
                return new Said(registered().askBody(operation, body), isDoubtful);
            } catch (EvictedException why) {
                isDoubtful |= isGone;
                isGone = false;
                session = null;
                rest(waits, why);
            } catch (ReplyLostException why) {
                if (FORBIDDEN.contains(why.told())) {
                    throw why;
                }
                isGone |= !(why instanceof BusyException);
                rest(waits, why);
            } catch (NotYetException why) {
                rest(waits, why);
            } catch (ClientException why) {
                if (why.mayHaveSent() || !isGone && !isDoubtful) {
                    throw why;
                }
                if (!mayCome(why)) {
                    throw again(why);
                }
                rest(absence, why);
            }
        }
    }

    private void rest(Pool.Patience waits, ClientException why) {
        if (!pool.rest(waits.next(why), why)) {
            throw again(why);
        }
    }

    private static ReplyLostException again(ClientException why) {
        String text = "no reply came, and it was not sent again: " + why.getMessage();
        return new ReplyLostException(text, "", why);
    }

    /** The session, registered. */
    private Session registered() {
        if (session != null && session.number() == Layout.NUMBER_MAX) {
            leaveIfLast();
        }
        if (session == null) {
            session = new Session(transport, ids.get(), ONCE);
            session.prepare(Operation.REGISTER, List.of());
        }
        Pool.Patience waits = new Pool.Patience();
        while (session.session().signum() == 0) {
            try {
                session.retry();
            } catch (ReplyLostException | NotYetException why) {
                if (why instanceof ReplyLostException it && FORBIDDEN.contains(it.told())) {
                    throw why;
                }
                if (!pool.rest(waits.next(why), why)) {
                    throw Pool.closed();
                }
            }
        }
        return session;
    }

    /** Gives a session up that has no next number. */
    private void leaveIfLast() {
        if (session.inDoubt().isEmpty()) {
            session = null;
        }
    }

    /** Whether a server is not there, and may be later. */
    private static boolean mayCome(ClientException why) {
        return why instanceof CannotConnectException it && !it.isFinal();
    }

    /** Waits for a request in flight, and closes the transport. */
    void end() {
        transport.close();
        boolean isInterrupted = false;
        while (this != Thread.currentThread() && isAlive()) {
            try {
                join();
            } catch (InterruptedException why) {
                isInterrupted = true;
            }
        }
        if (isInterrupted) {
            Thread.currentThread().interrupt();
        }
    }
}
