package org.telovamish.tbclient;

import java.math.BigInteger;
import java.nio.file.Path;
import java.time.Duration;
import java.util.HexFormat;
import java.util.List;
import java.util.Optional;
import java.util.concurrent.TimeUnit;
import java.util.concurrent.locks.ReentrantLock;

/**
 * The session of a client: it numbers its requests, keeps one in flight, and sends the same bytes
 * again until it has the reply.
 *
 * <p>What is to survive a crash goes by {@link #prepare}, {@link #save}, {@link #retry} and {@link
 * #save}: after a crash {@link #load} gives the session, and {@link #retry} sends the bytes that
 * were in doubt. After a {@link ReplyLostException}, a {@link BadReplyException}, a {@link
 * RefusedException} and a {@link CancelledException} that may have been sent, the request stays in
 * doubt, and no other one is made.
 *
 * <p>A lookup takes a number too. If the file has an older number than the session had, the next
 * request gets the reply to an old one, or is refused. So a session that is saved makes its lookups
 * the same way, or leaves them to another session.
 *
 * <p>Each call has a form with a limit of its own, {@code within}: null is no limit, and one of 0
 * or less sends nothing. Without it a call takes at most its attempts, each with the transport's
 * timeout, and the pauses between them.
 *
 * <p>Threads may share a session: their requests go one after another. What it is ({@link #saved},
 * {@link #inDoubt} and the like) is told, and kept in a file, while a request is on its way too.
 */
public final class Session implements AutoCloseable {
    private static final long PAUSE_MAX = TimeUnit.SECONDS.toNanos(1);

    private final Transport transport;
    private final SessionOptions options;
    private final BigInteger client;
    private final ReentrantLock lock = new ReentrantLock(true);
    private final ReentrantLock saving = new ReentrantLock(true);
    private final Object state = new Object(); // guards the next three
    private long session;
    private long number;
    private byte[] pending; // the request in doubt, or null
    private boolean mayBeSent;
    private RefusedException refused; // the last refusal of the request in doubt, or null

    /**
     * A session that is not registered. Nothing is sent.
     *
     * @param transport what carries its frames
     * @param client the client's id, 1 to 2^128 - 1, which no other client has: {@link Ids#id}
     * @param options how it sends
     * @throws InvalidValueException if there is no such client
     */
    public Session(Transport transport, BigInteger client, SessionOptions options) {
        this.transport = Values.given("transport", transport);
        this.client = Values.client("client", client);
        this.options = Values.given("options", options);
    }

    /**
     * Registers a new client.
     *
     * @param transport what carries its frames
     * @return its session
     */
    public static Session register(Transport transport) {
        return register(transport, Ids.id(), SessionOptions.DEFAULT, null);
    }

    /**
     * Registers a client.
     *
     * @param transport what carries its frames
     * @param client the client's id, 1 to 2^128 - 1, which no other client has
     * @param options how it sends
     * @param within the limit of this call, or null
     * @return its session
     */
    public static Session register(
            Transport transport, BigInteger client, SessionOptions options, Duration within) {
        Session it = new Session(transport, client, options);
        it.ask(Operation.REGISTER, List.of(), within);
        return it;
    }

    /**
     * The session as it was when {@code saved} was taken. If a request was in doubt, {@link
     * #retry} it first.
     *
     * @param transport what carries its frames
     * @param saved what was kept
     * @param options how it sends
     * @return the session
     * @throws InvalidValueException if a field is out of its range, or the bytes in doubt are
     *     not the next request of this very session
     */
    public static Session resume(Transport transport, Saved saved, SessionOptions options) {
        Values.given("saved", saved);
        Session it = new Session(transport, Values.client("saved.client", saved.client()), options);
        it.session = Values.whole("saved.session", saved.session(), 64).longValue();
        it.number = Values.within("saved.number", saved.number(), 0, Values.U32);
        it.pending = it.pendingOf(Values.given("saved.pending", saved.pending()));
        it.mayBeSent = it.pending != null;
        return it;
    }

    private byte[] pendingOf(String text) {
        String field = "saved.pending";
        if (text.isEmpty()) {
            return null;
        }
        byte[] frame;
        try {
            frame = HexFormat.of().parseHex(text);
        } catch (IllegalArgumentException why) {
            throw new InvalidValueException(field, "is no hex");
        }
        Frames.testRequest(field, frame);
        boolean isRegister = Frames.operation(frame) == Operation.REGISTER;
        if (!Frames.client(frame).equals(client) || Frames.session(frame) != session
                || Frames.number(frame) != (isRegister ? 0 : number + 1)
                || isRegister && number != 0 || !isRegister && session == 0) {
            throw new InvalidValueException(field, "is not the next request of this session");
        }
        return frame;
    }

    /**
     * The session that {@link #save} kept in a file, here or in a client of another language. If
     * a request was in doubt, {@link #retry} it first.
     *
     * @param transport what carries its frames
     * @param path the file
     * @return the session
     * @throws FileException if the file is not there, or cannot be read
     * @throws InvalidValueException if it is no session, or was cut or edited
     */
    public static Session load(Transport transport, Path path) {
        return load(transport, path, SessionOptions.DEFAULT);
    }

    /**
     * The same, with options.
     *
     * @param transport what carries its frames
     * @param path the file
     * @param options how it sends
     * @return the session
     * @throws FileException if the file is not there, or cannot be read
     * @throws InvalidValueException if it is no session, or was cut or edited
     */
    public static Session load(Transport transport, Path path, SessionOptions options) {
        return resume(transport, SavedFile.read(path), options);
    }

    // What it is

    /**
     * The client's id.
     *
     * @return 1 to 2^128 - 1
     */
    public BigInteger client() {
        return client;
    }

    /**
     * The session's number.
     *
     * @return 64 bits; 0 if it is not registered
     */
    public BigInteger session() {
        synchronized (state) {
            return Values.unsigned(session);
        }
    }

    /**
     * The number of the last request that was answered.
     *
     * @return 0 to 2^32 - 1
     */
    public long number() {
        synchronized (state) {
            return number;
        }
    }

    /**
     * What outlives the client.
     *
     * @return it, as it is now
     */
    public Saved saved() {
        synchronized (state) {
            String hex = pending == null ? "" : HexFormat.of().formatHex(pending);
            return new Saved(client, Values.unsigned(session), number, hex);
        }
    }

    /**
     * Keeps the session in a file, whole: after a crash the file has it as it is now, or as it was
     * before.
     *
     * @param path the file
     * @throws FileException if the system refuses that; the file is then as it was before, or as
     *     it is now if only its folder could not be synced
     * @throws InvalidValueException if the path is of a folder, a pipe or a device
     */
    public void save(Path path) {
        saving.lock(); // so that nothing older is written over it
        try {
            SavedFile.write(path, saved());
        } finally {
            saving.unlock();
        }
    }

    /**
     * The request that has no reply yet. It is kept over refusals, because it may have been
     * executed before: after an eviction create its records again, with the same ids, in a new
     * session.
     *
     * @return the request, or no request
     */
    public Optional<Request> inDoubt() {
        synchronized (state) {
            return Optional.ofNullable(pending).map(Frames::read);
        }
    }

    /** Changes what outlives the client. The caller has the lock, and others may look meanwhile. */
    private void keep(long newSession, long newNumber, byte[] newPending) {
        synchronized (state) {
            session = newSession;
            number = newNumber;
            pending = newPending;
        }
    }

    // Calls

    /**
     * Creates accounts.
     *
     * @param accounts at most 8190
     * @return the results of those that were not created, by rising index
     */
    public List<EventResult<CreateAccountResult>> createAccounts(List<Account> accounts) {
        return createAccounts(accounts, null);
    }

    /**
     * Creates accounts.
     *
     * @param accounts at most 8190
     * @param within the limit of this call, or null
     * @return the results of those that were not created, by rising index
     */
    public List<EventResult<CreateAccountResult>> createAccounts(
            List<Account> accounts, Duration within) {
        Answer said = ask(Operation.CREATE_ACCOUNTS, accounts, within);
        return ((Answer.AccountResults) said).results();
    }

    /**
     * Makes transfers.
     *
     * @param transfers at most 8190
     * @return the results of those that were not made, by rising index
     */
    public List<EventResult<CreateTransferResult>> createTransfers(List<Transfer> transfers) {
        return createTransfers(transfers, null);
    }

    /**
     * Makes transfers.
     *
     * @param transfers at most 8190
     * @param within the limit of this call, or null
     * @return the results of those that were not made, by rising index
     */
    public List<EventResult<CreateTransferResult>> createTransfers(
            List<Transfer> transfers, Duration within) {
        Answer said = ask(Operation.CREATE_TRANSFERS, transfers, within);
        return ((Answer.TransferResults) said).results();
    }

    /**
     * Looks accounts up. It takes a number: see above for a session that is saved.
     *
     * @param ids at most 8190: each a {@link BigInteger}, a UUID, or 16 bytes, the low one first
     * @return the accounts that are there, in the order of the ids
     */
    public List<Account> lookupAccounts(List<?> ids) {
        return lookupAccounts(ids, null);
    }

    /**
     * Looks accounts up. It takes a number: see above for a session that is saved.
     *
     * @param ids at most 8190: each a {@link BigInteger}, a UUID, or 16 bytes, the low one first
     * @param within the limit of this call, or null
     * @return the accounts that are there, in the order of the ids
     */
    public List<Account> lookupAccounts(List<?> ids, Duration within) {
        return ((Answer.Accounts) ask(Operation.LOOKUP_ACCOUNTS, ids, within)).accounts();
    }

    /**
     * Looks transfers up. It takes a number: see above for a session that is saved.
     *
     * @param ids at most 8190: each a {@link BigInteger}, a UUID, or 16 bytes, the low one first
     * @return the transfers that are there, in the order of the ids
     */
    public List<Transfer> lookupTransfers(List<?> ids) {
        return lookupTransfers(ids, null);
    }

    /**
     * Looks transfers up. It takes a number: see above for a session that is saved.
     *
     * @param ids at most 8190: each a {@link BigInteger}, a UUID, or 16 bytes, the low one first
     * @param within the limit of this call, or null
     * @return the transfers that are there, in the order of the ids
     */
    public List<Transfer> lookupTransfers(List<?> ids, Duration within) {
        return ((Answer.Transfers) ask(Operation.LOOKUP_TRANSFERS, ids, within)).transfers();
    }

    /** Prepares and sends. A call that sent nothing is as if it had not been made. */
    private Answer ask(Operation operation, List<?> items, Duration within) {
        Deadline limit = Deadline.in(within);
        limit.take(lock);
        try {
            make(operation, items);
            return sendOrForget(limit);
        } finally {
            lock.unlock();
        }
    }

    /** Sends a request of this body, or the one in doubt again. */
    Answer askBody(Operation operation, byte[] body) {
        lock.lock();
        try {
            if (pending != null) {
                return send(Deadline.in(null));
            }
            makeOf(operation, body);
            return sendOrForget(Deadline.in(null));
        } finally {
            lock.unlock();
        }
    }

    private Answer sendOrForget(Deadline limit) {
        try {
            return send(limit);
        } catch (RuntimeException | Error why) {
            if (!mayBeSent) {
                keep(session, number, null);
            }
            throw why;
        }
    }

    /**
     * Makes the next request, and sends nothing. It is in doubt from then on: {@link #save} the
     * session, then {@link #retry}.
     *
     * @param operation what it asks for
     * @param items {@link Account}s or {@link Transfer}s to create, or the ids to look up, as for
     *     {@link #lookupAccounts}; nothing for a register
     * @throws InDoubtException if the last request has no reply yet
     * @throws InvalidValueException if the items are not what the operation takes
     */
    public void prepare(Operation operation, List<?> items) {
        lock.lock();
        try {
            make(operation, items);
        } finally {
            lock.unlock();
        }
    }

    private void make(Operation operation, List<?> items) {
        testNotInDoubt();
        byte[] body = Frames.body(operation, items);
        testNotInDoubt(); // again, because what gives the items may have used the session
        makeOf(operation, body);
    }

    private void makeOf(Operation operation, byte[] body) {
        if (operation == Operation.REGISTER) {
            if (session != 0) {
                throw new InvalidValueException("session", "is registered already");
            }
            keep(session, number, Frames.request(client, 0, 0, operation, body));
        } else {
            if (session == 0) {
                throw new InvalidValueException("session", "is 0: register first");
            }
            if (number == Layout.NUMBER_MAX) {
                throw new InvalidValueException("number", "is the last one: register anew");
            }
            byte[] frame = Frames.request(client, session, number + 1, operation, body);
            keep(session, number, frame);
        }
        mayBeSent = false;
        refused = null;
    }

    private void testNotInDoubt() {
        if (pending == null) {
            return;
        }
        if (refused == null) {
            throw new InDoubtException("the last request has no reply yet: retry it");
        }
        String why = refused instanceof EvictedException
                ? "the session has ended (%s): register anew, and see inDoubt"
                : "the last request was refused (%s), and is in doubt: see inDoubt";
        throw new InDoubtException(String.format(why, refused.status().label()));
    }

    /**
     * Sends the request in doubt, the same bytes each time, until its reply has come.
     *
     * @return what the reply says
     * @throws NothingInDoubtException if no request is in doubt
     */
    public Answer retry() {
        return retry(null);
    }

    /**
     * Sends the request in doubt, the same bytes each time, until its reply has come.
     *
     * @param within the limit of this call, or null
     * @return what the reply says
     * @throws NothingInDoubtException if no request is in doubt
     */
    public Answer retry(Duration within) {
        Deadline limit = Deadline.in(within);
        limit.take(lock);
        try {
            if (pending == null) {
                throw new NothingInDoubtException("no request is in doubt");
            }
            return send(limit);
        } finally {
            lock.unlock();
        }
    }

    private Answer send(Deadline limit) {
        ClientException last = null; // what became of the last attempt of this call
        long pause = options.pause().toNanos();
        long greatest = Math.max(pause, PAUSE_MAX);
        for (int left = options.attempts() - 1;; left--) {
            try {
                return take(exchange(limit));
            } catch (ReplyLostException | NotYetException why) {
                if (left == 0) {
                    throw why;
                }
                last = why;
                if (why instanceof BusyException || why instanceof NotYetException) {
                    pause(pause, limit);
                    pause = Math.min(2 * pause, greatest);
                }
            } catch (ClientException why) {
                throw last == null || why.mayHaveSent() ? why : afterSending(last, why);
            }
        }
    }

    /** What a fault is that sent nothing, if an earlier attempt of the same call did. */
    private static ClientException afterSending(ClientException last, ClientException why) {
        if (why instanceof CancelledException) {
            return new CancelledException(last.getMessage() + "; " + why.getMessage(), true);
        }
        String text = last.getMessage() + "; it was not sent again: " + why.getMessage();
        return new ReplyLostException(text, "", why);
    }

    private static void pause(long nanoseconds, Deadline limit) {
        try {
            if (!limit.sleep(nanoseconds)) {
                throw Deadline.late(true);
            }
        } catch (InterruptedException why) {
            throw Deadline.interrupted(true);
        }
    }

    private byte[] exchange(Deadline limit) {
        try {
            byte[] reply = transport.exchange(pending, limit.time());
            mayBeSent = true;
            return reply;
        } catch (ClientException why) {
            mayBeSent |= why.mayHaveSent();
            throw why;
        } catch (RuntimeException | Error why) {
            mayBeSent = true;
            throw why;
        }
    }

    /**
     * Takes the reply to the request in doubt, which is in doubt no longer. A refusal leaves it in
     * doubt, because it may have been executed before.
     */
    private Answer take(byte[] reply) {
        Frames.testWhole(pending, reply);
        Status status = Frames.status(reply);
        if (status != Status.REPLY) {
            refused = RefusedException.of(
                    status, Frames.number(pending), Long.toUnsignedString(session));
            throw refused;
        }
        Answer said = Frames.said(pending, reply);
        keep(Frames.session(reply), Frames.number(pending), null);
        refused = null;
        return said;
    }

    /**
     * The test that no event failed.
     *
     * @param results what a create answered
     * @throws EventsFailedException if an event was not accepted
     */
    public static void requireOk(List<? extends EventResult<?>> results) {
        if (!Values.given("results", results).isEmpty()) {
            throw new EventsFailedException(List.copyOf(results));
        }
    }

    /**
     * The results without those of one kind: after an eviction the same records are created again,
     * and {@code EXISTS} says that it was done before. Of a linked chain that was done before one
     * event exists, and the others failed with it: those are left.
     *
     * @param results what a create answered
     * @param result the kind that is no fault
     * @param <R> {@link CreateAccountResult} or {@link CreateTransferResult}
     * @return the others
     */
    public static <R extends ResultCode> List<EventResult<R>> except(
            List<EventResult<R>> results, R result) {
        return results.stream().filter(it -> it.result() != result).toList();
    }

    /** Closes the transport, which other sessions may share. */
    @Override
    public void close() {
        transport.close();
    }
}
