package org.telovamish.tbclient;

import java.io.IOException;
import java.io.InterruptedIOException;
import java.net.SocketAddress;
import java.net.SocketTimeoutException;
import java.net.UnknownHostException;
import java.nio.ByteBuffer;
import java.nio.charset.StandardCharsets;
import java.security.cert.CertPathValidatorException;
import java.security.cert.CertificateException;
import java.time.Duration;
import java.util.HashSet;
import java.util.List;
import java.util.Set;
import java.util.concurrent.locks.ReentrantLock;
import java.util.regex.Pattern;
import javax.net.ssl.SSLContext;
import javax.net.ssl.SSLHandshakeException;

/**
 * A connection to a server that listens, at one of some addresses.
 *
 * <p>It is made when a request is to be sent. One that broke, that the server closed, or on which
 * no reply came in time, is closed, and the next exchange makes a new one, to the next address
 * if there are several. Threads and sessions may share a transport: an exchange is one thread's
 * from its first byte to its last.
 */
public final class SocketTransport implements Transport {
    /** The time that one sending may take if no time is given. */
    public static final Duration TIMEOUT = Duration.ofSeconds(5);

    private static final Duration TIMEOUT_MIN = Duration.ofMillis(1);
    private static final long FIRST_PAUSE = 20_000_000; // ns, before the servers are called again
    private static final long LAST_PAUSE = 500_000_000;
    private static final String TOLD = "tb_listen: "; // begins what is told before a closing
    private static final String STARTING = "Starting";
    // say to come later: there are too many connections, or the peer has its share
    private static final Set<String> LATER =
            Set.of("Busy", "TooManyConnections", "TooManySessions", "TooManyRequests");
    // alerts by which a server refuses this client, whose request it does not read. The last one
    // says so in TLS 1.2, if the server requires a certificate
    private static final Pattern REFUSAL =
            Pattern.compile("Received fatal alert: (\\w*certificate\\w*|unknown_ca|access_denied"
                    + "|handshake_failure)$");

    private final List<Address> addresses;
    private final Duration timeout;
    private final SSLContext tls;
    private final Lookup lookup;
    private final ReentrantLock lock = new ReentrantLock(true);
    private int at;
    private Address gone; // the one that was given up last
    private Exception cause; // why no reply came to this exchange so far, or null
    private String causeText;
    private Link link;
    private boolean isUsed; // a reply came over the link
    private volatile boolean closed; // also for who waits for the lock

    /**
     * A transport to one address, with {@link #TIMEOUT}, without TLS.
     *
     * @param address where the server listens
     */
    public SocketTransport(Address address) {
        this(List.of(Values.given("address", address)), TIMEOUT, null);
    }

    /**
     * A transport to one of some addresses.
     *
     * @param addresses one or more; they are taken in order, the first after the last
     * @param timeout the time for one sending, from the connecting to the reply's last byte: 1 ms
     *     to 2^32 - 1 s
     * @param tls how TLS is spoken with a host and a port, or null for no TLS. The server's
     *     certificate has to be of the host
     * @throws InvalidValueException if there is no address, no such timeout, or TLS for a path
     */
    public SocketTransport(List<Address> addresses, Duration timeout, SSLContext tls) {
        this(addresses, timeout, tls, Lookup.SYSTEM);
    }

    SocketTransport(List<Address> addresses, Duration timeout, SSLContext tls, Lookup lookup) {
        this.addresses = listed(addresses);
        this.timeout = Values.time("timeout", timeout, TIMEOUT_MIN);
        this.tls = tls;
        this.lookup = lookup;
        if (tls != null && this.addresses.stream().anyMatch(Address::isUnix)) {
            throw new InvalidValueException("tls", "is for a host and a port, not for a path");
        }
    }

    private static List<Address> listed(List<Address> addresses) {
        Address[] given = Values.given("address", addresses).toArray(new Address[0]);
        if (given.length == 0) {
            throw new InvalidValueException("address", "has no address");
        }
        for (Address it : given) {
            Values.given("address", it);
        }
        return List.of(given);
    }

    @Override
    public byte[] exchange(byte[] frame, Duration within) {
        Frames.testRequest("frame", frame); // the server would close the connection at a wrong one
        Deadline limit = Deadline.in(within);
        limit.take(lock);
        try {
            testOpen();
            cause = null;
            Deadline until = limit.sooner(timeout.toNanos());
            return answered(frame, until, limit);
        } finally {
            lock.unlock();
        }
    }

    private void testOpen() {
        if (closed) {
            throw new ClosedException("this transport was closed");
        }
    }

    /**
     * The reply. A server that still reads its ledger takes no request, and is called again. So is
     * one that refuses this client by TLS, if another address may take it.
     */
    private byte[] answered(byte[] frame, Deadline until, Deadline limit) {
        Set<Address> refusing = new HashSet<>();
        for (long pause = FIRST_PAUSE;; pause = Math.min(2 * pause, LAST_PAUSE)) {
            connect(until, limit);
            try {
                return exchanged(frame, until, limit);
            } catch (DistrustedException why) {
                keep(why, why.getMessage());
                refusing.add(gone);
                if (refusing.containsAll(addresses)) {
                    throw notConnected(limit, true);
                }
                rest(pause, until, limit);
            } catch (ReplyLostException why) {
                if (!why.told().equals(STARTING)) {
                    throw why;
                }
                keep(why, why.getMessage());
                rest(pause, until, limit);
            }
        }
    }

    /** Keeps why no reply came. That the time went by says less than a fault before it. */
    private void keep(Exception why, String text) {
        if (cause == null || !(why instanceof SocketTimeoutException)) {
            cause = why;
            causeText = gone + ": " + text;
        }
    }

    /** The server refuses this client by TLS, and did not take the request. */
    private static final class DistrustedException extends ReplyLostException {
        private static final long serialVersionUID = 1L;

        DistrustedException(IOException why) {
            super("the server refuses this client: " + why.getMessage(), "", why);
        }
    }

    private void rest(long pause, Deadline until, Deadline limit) {
        try {
            if (until.sleep(pause)) {
                return;
            }
        } catch (InterruptedException interrupt) {
            throw Deadline.interrupted(false);
        }
        throw notConnected(limit, false);
    }

    private byte[] exchanged(byte[] frame, Deadline until, Deadline limit) {
        boolean isDone = false;
        try {
            send(frame, until);
            byte[] reply = reply(frame, until);
            isDone = true;
            return reply;
        } catch (SocketTimeoutException late) {
            if (limit.isOver()) {
                throw Deadline.late(true);
            }
            String before = cause == null ? "" : ", after " + causeText;
            throw new ReplyLostException("no reply within " + timeout + before, "", late);
        } catch (InterruptedIOException why) {
            throw Deadline.interrupted(true);
        } catch (IOException why) {
            if (!isUsed && isRefusal(why)) {
                throw new DistrustedException(why);
            }
            throw new ReplyLostException("the connection broke: " + why.getMessage(), "", why);
        } finally {
            if (!isDone) { // a late reply is then never met
                lose();
            }
        }
    }

    // Connecting

    /** Makes a connection if it has no open one, or if the server closed it. */
    private void connect(Deadline until, Deadline limit) {
        if (link != null && link.isLeft(until)) {
            lose();
        }
        long pause = FIRST_PAUSE;
        while (link == null) {
            testOpen();
            try {
                boolean areDistrust = callEach(until);
                if (link == null && (areDistrust || !until.sleep(pause))) {
                    throw notConnected(limit, areDistrust);
                }
                pause = Math.min(2 * pause, LAST_PAUSE);
            } catch (InterruptedIOException | InterruptedException why) {
                throw Deadline.interrupted(false);
            }
        }
    }

    private ClientException notConnected(Deadline limit, boolean isFinal) {
        return limit.isOver()
                ? new CancelledException("the limit of the call went by: " + causeText, false)
                : new CannotConnectException(causeText, cause, isFinal);
    }

    private static String said(IOException fault) {
        String said = fault.getMessage() == null ? fault.toString() : fault.getMessage();
        boolean isName = fault instanceof UnknownHostException; // of which Java says no more
        return isName ? "the host's name cannot be looked up: " + said : said;
    }

    /**
     * Calls the addresses in order until one replies. Returns whether at each address one side does
     * not trust the other.
     */
    private boolean callEach(Deadline until) throws InterruptedIOException {
        boolean areDistrust = true;
        for (int left = addresses.size(); left > 0; left--) {
            IOException fault;
            try {
                Address address = addresses.get(at);
                Deadline share = until.sooner(until.left() / left);
                link = called(address, address.places(lookup, share), share);
                isUsed = false;
                return false;
            } catch (SocketTimeoutException late) {
                fault = late;
            } catch (InterruptedIOException why) {
                throw why;
            } catch (IOException why) {
                fault = why;
            }
            areDistrust &= isOfCertificate(fault) || isRefusal(fault);
            next();
            keep(fault, said(fault));
        }
        return areDistrust;
    }

    /** Calls the places of an address in order. Each has a share of the time. */
    Link called(Address address, List<SocketAddress> places, Deadline until) throws IOException {
        IOException fault = null; // the last one, but the end of the time says less than another
        for (int left = places.size();; left--) {
            SocketAddress place = places.get(places.size() - left);
            Deadline share = until.sooner(until.left() / left);
            try {
                PlainLink plain = PlainLink.to(place, share);
                return tls == null ? plain : TlsLink.over(plain, tls, address, share);
            } catch (IOException why) {
                if (isInterrupt(why) || isOfCertificate(why)) {
                    throw why;
                }
                fault = fault == null || !(why instanceof SocketTimeoutException) ? why : fault;
                if (left == 1) {
                    throw fault;
                }
            }
        }
    }

    /** Whether the thread was interrupted, which ends the call. */
    private static boolean isInterrupt(IOException fault) {
        return fault instanceof InterruptedIOException
                && !(fault instanceof SocketTimeoutException);
    }

    /** Whether a server's certificate is why: calling it again changes nothing. */
    private static boolean isOfCertificate(Throwable fault) {
        for (Throwable it = fault; it != null; it = it.getCause()) {
            if (it instanceof CertificateException || it instanceof CertPathValidatorException) {
                return true;
            }
        }
        return false;
    }

    /** Whether the server refuses this client. In TLS 1.3 it says so when the client has agreed. */
    private static boolean isRefusal(IOException fault) {
        return fault instanceof SSLHandshakeException && REFUSAL.matcher(fault.getMessage()).find();
    }

    private void next() {
        gone = addresses.get(at);
        at = (at + 1) % addresses.size();
    }

    /** Closes the connection. The next one goes to the next address. */
    private void lose() {
        hangUp();
        next();
    }

    private void hangUp() {
        Link it = link;
        link = null;
        if (it != null) {
            it.close();
        }
    }

    // One exchange

    /** Sends the request. If the server closed the connection, what it sent before is read. */
    private void send(byte[] frame, Deadline until) throws IOException {
        try {
            link.write(ByteBuffer.wrap(frame).asReadOnlyBuffer(), until);
        } catch (InterruptedIOException why) {
            throw why;
        } catch (IOException broke) {
            ByteBuffer said = ByteBuffer.allocate(Layout.HEADER_SIZE);
            fill(said, until, broke);
            throw broke;
        }
    }

    private byte[] reply(byte[] frame, Deadline until) throws IOException {
        ByteBuffer header = ByteBuffer.allocate(Layout.HEADER_SIZE);
        fill(header, until, null);
        isUsed = true;
        Frames.testReply(header.array());
        Frames.testAsked(frame, header.array());
        int length = (int) Frames.length(header.array()); // of at most 8190 items
        ByteBuffer whole = ByteBuffer.allocate(Layout.HEADER_SIZE + length);
        fill(whole.put(header.array()), until, null);
        return whole.array();
    }

    /** Reads until it is full. If the connection ends before, what the server sent is reported. */
    private void fill(ByteBuffer into, Deadline until, IOException broken) throws IOException {
        try {
            while (into.hasRemaining()) {
                if (!link.read(into, until)) {
                    throw ended(into, broken);
                }
            }
        } catch (InterruptedIOException why) {
            throw why;
        } catch (IOException why) {
            if (told(into) != null) {
                throw ended(into, why);
            }
            throw why;
        }
    }

    /** The name that the server sent before it closed the connection, or null for no name. */
    private static String told(ByteBuffer came) {
        String said = new String(came.array(), 0, came.position(), StandardCharsets.ISO_8859_1);
        if (!said.startsWith(TOLD)) {
            return null;
        }
        return said.substring(TOLD.length()).strip().replaceAll("[^ -~]", "?"); // for terminals
    }

    private static ReplyLostException ended(ByteBuffer came, IOException cause) {
        String told = told(came);
        if (told == null) {
            return new ReplyLostException("the server closed the connection", "", cause);
        }
        String text = "the server closed the connection: " + told;
        return LATER.contains(told) ? new BusyException(text, told)
                                    : new ReplyLostException(text, told, cause);
    }

    /**
     * Closes the connection. Each exchange afterwards is a {@link ClosedException}, and so is one
     * that waits for its turn, or for a server that listens. One that was sent in another thread
     * comes to its end first.
     */
    @Override
    public void close() {
        closed = true;
        lock.lock();
        try {
            hangUp();
        } finally {
            lock.unlock();
        }
    }

    @Override
    public String toString() {
        return "SocketTransport" + addresses;
    }
}
