package org.telovamish.tbclient;

import static java.net.StandardProtocolFamily.UNIX;
import static java.nio.charset.StandardCharsets.US_ASCII;
import static org.junit.Assert.assertEquals;
import static org.junit.Assert.assertFalse;
import static org.junit.Assert.assertNotEquals;
import static org.junit.Assert.assertThrows;
import static org.junit.Assert.assertTrue;

import java.io.DataInputStream;
import java.io.IOException;
import java.io.InterruptedIOException;
import java.io.OutputStream;
import java.lang.management.BufferPoolMXBean;
import java.lang.management.ManagementFactory;
import java.math.BigInteger;
import java.net.InetAddress;
import java.net.InetSocketAddress;
import java.net.ServerSocket;
import java.net.Socket;
import java.net.SocketAddress;
import java.net.SocketTimeoutException;
import java.net.UnixDomainSocketAddress;
import java.net.UnknownHostException;
import java.nio.channels.ServerSocketChannel;
import java.nio.file.FileSystem;
import java.nio.file.FileSystems;
import java.nio.file.Files;
import java.nio.file.Path;
import java.time.Duration;
import java.util.ArrayList;
import java.util.Collections;
import java.util.List;
import java.util.Map;
import java.util.concurrent.Callable;
import java.util.concurrent.ConcurrentHashMap;
import java.util.concurrent.CountDownLatch;
import java.util.concurrent.ExecutionException;
import java.util.concurrent.ExecutorService;
import java.util.concurrent.Executors;
import java.util.concurrent.Future;
import java.util.concurrent.atomic.AtomicInteger;
import java.util.concurrent.atomic.AtomicLong;
import java.util.stream.Stream;
import org.junit.After;
import org.junit.Before;
import org.junit.Test;

/** The transport before a small server on a port. */
public class SocketTransportTest {
    private static final Duration SHORT = Duration.ofMillis(200);
    private static final SessionOptions ONCE = new SessionOptions(1, Duration.ofMillis(1));

    private final AtomicLong commits = new AtomicLong();
    private final AtomicInteger connections = new AtomicInteger();
    private final AtomicInteger silent = new AtomicInteger(); // requests that get no reply
    private ServerSocket server;

    @Before
    public void listen() throws IOException {
        server = new ServerSocket(0, 50, InetAddress.getLoopbackAddress());
        start(() -> {
            while (true) {
                Socket it = server.accept();
                connections.incrementAndGet();
                start(() -> serve(it));
            }
        });
    }

    private static void start(Callable<Void> work) {
        Thread it = new Thread(() -> {
            try {
                work.call();
            } catch (Exception ended) {
                // the client closed it, or the test is over
            }
        });
        it.setDaemon(true);
        it.start();
    }

    @After
    public void stop() throws IOException {
        server.close();
    }

    /** Registers and empty lookups are answered, one after another. */
    private Void serve(Socket socket) throws IOException {
        try (socket) {
            DataInputStream in = new DataInputStream(socket.getInputStream());
            OutputStream out = socket.getOutputStream();
            while (true) {
                byte[] frame = in.readNBytes(Layout.HEADER_SIZE);
                if (frame.length < Layout.HEADER_SIZE) {
                    return null;
                }
                in.skipNBytes(Frames.length(frame));
                if (silent.getAndDecrement() > 0) {
                    continue;
                }
                long commit = commits.incrementAndGet();
                byte[] reply = frame.clone();
                Values.putInt(reply, Layout.REPLY_HEADER_LENGTH, 0);
                Values.putLong(reply, Layout.REPLY_HEADER_COMMIT, commit);
                if (Frames.operation(frame) == Operation.REGISTER) {
                    Values.putLong(reply, Layout.REPLY_HEADER_SESSION, commit);
                }
                out.write(reply);
            }
        }
    }

    private SocketTransport transport(Duration timeout) {
        Address address = Address.tcp("127.0.0.1", port());
        return new SocketTransport(List.of(address), timeout, null);
    }

    private int port() {
        return server.getLocalPort();
    }

    private static Session registered(Transport transport) {
        return Session.register(transport, Ids.id(), ONCE, null);
    }

    @Test(timeout = 30_000)
    public void aReplyThatDoesNotComeIsLostAndTheConnectionLeft() {
        try (Session session = registered(transport(Duration.ofSeconds(2)))) {
            silent.set(1);
            assertThrows(ReplyLostException.class,
                    () -> session.lookupAccounts(List.of(BigInteger.ONE)));
            session.retry();
            assertEquals(2, connections.get());
            assertEquals(1, session.number());
        }
    }

    @Test(timeout = 30_000)
    public void aLimitOfTheCallersEndsAWait() {
        try (Session session = registered(transport(Duration.ofSeconds(20)))) {
            silent.set(1);
            CancelledException why = assertThrows(CancelledException.class,
                    () -> session.lookupAccounts(List.of(BigInteger.ONE), Duration.ofSeconds(2)));
            assertTrue(why.mayHaveSent());
            session.retry(Duration.ofSeconds(20));
        }
    }

    @Test(timeout = 30_000)
    public void aLimitThatWentByBeforeSendsNothing() {
        try (Session session = registered(transport(Duration.ofSeconds(20)))) {
            for (long seconds : new long[] {0, -1, Long.MIN_VALUE}) {
                Duration over = Duration.ofSeconds(seconds);
                CancelledException why = assertThrows(CancelledException.class,
                        () -> session.lookupAccounts(List.of(BigInteger.ONE), over));
                assertFalse(why.mayHaveSent());
                assertTrue(session.inDoubt().isEmpty());
            }
            session.lookupAccounts(List.of(BigInteger.ONE), Duration.ofSeconds(Long.MAX_VALUE));
            assertEquals(1, session.number());
            assertEquals(2, commits.get());
        }
    }

    @Test(timeout = 30_000)
    public void anInterruptEndsAWait() throws Exception {
        try (Session session = registered(transport(Duration.ofSeconds(20)))) {
            silent.set(1);
            Thread caller = Thread.currentThread();
            start(() -> {
                while (silent.get() > 0) { // until the server has read the request
                    Thread.sleep(1);
                }
                caller.interrupt();
                return null;
            });
            CancelledException why = assertThrows(CancelledException.class,
                    () -> session.lookupAccounts(List.of(BigInteger.ONE)));
            assertTrue(why.mayHaveSent());
            assertTrue(Thread.interrupted());
            session.retry();
        }
    }

    /** A place at which a connecting waits: as many as may wait to be accepted are there. */
    private static ServerSocket full(List<Socket> waiting) throws IOException {
        ServerSocket it = new ServerSocket(0, 1, InetAddress.getLoopbackAddress());
        try {
            while (true) {
                Socket next = new Socket();
                waiting.add(next);
                next.connect(it.getLocalSocketAddress(), 200);
            }
        } catch (SocketTimeoutException full) {
            return it;
        }
    }

    @Test(timeout = 30_000)
    public void anInterruptAtOnePlaceIsNoConnectionToTheNext() throws IOException {
        List<Socket> waiting = new ArrayList<>();
        Path path = Files.createTempDirectory("tbclient").resolve("ledger.sock");
        UnixDomainSocketAddress unix = UnixDomainSocketAddress.of(path);
        try (ServerSocket full = full(waiting);
                ServerSocketChannel atOnce = ServerSocketChannel.open(UNIX).bind(unix);
                SocketTransport transport = transport(SHORT)) {
            List<SocketAddress> places =
                    List.of(full.getLocalSocketAddress(), atOnce.getLocalAddress());
            Deadline until = Deadline.in(Duration.ofSeconds(20));
            Thread.currentThread().interrupt();
            assertThrows(InterruptedIOException.class,
                    () -> transport.called(Address.tcp("localhost", 1), places, until));
            assertTrue(Thread.interrupted());
        } finally {
            for (Socket it : waiting) {
                it.close();
            }
            Files.delete(path);
            Files.delete(path.getParent());
        }
    }

    @Test(timeout = 30_000)
    public void nobodyListensIsToldAsNotSent() throws IOException {
        try (Socket held = new Socket()) { // nobody else gets its port
            held.bind(new InetSocketAddress(InetAddress.getLoopbackAddress(), 0));
            List<Address> addresses = List.of(Address.tcp("127.0.0.1", held.getLocalPort()));
            SocketTransport once = new SocketTransport(addresses, SHORT, null);
            assertThrows(CannotConnectException.class, () -> registered(once));
            SocketTransport longer = new SocketTransport(addresses, Duration.ofSeconds(20), null);
            CancelledException why = assertThrows(CancelledException.class,
                    () -> Session.register(longer, Ids.id(), ONCE, Duration.ofSeconds(1)));
            assertFalse(why.mayHaveSent());
            String told = why.getMessage();
            assertTrue(told, told.endsWith(": " + addresses.get(0) + ": Connection refused"));
        }
    }

    @Test(timeout = 30_000)
    public void aSilentServerThatWasStartingIsToldAsThat() throws IOException {
        try (ServerSocket starting = new ServerSocket(0, 50, InetAddress.getLoopbackAddress())) {
            start(() -> {
                try (Socket client = starting.accept()) {
                    client.getOutputStream().write("tb_listen: Starting\n".getBytes(US_ASCII));
                }
                return null;
            });
            Address address = Address.tcp("127.0.0.1", starting.getLocalPort());
            Duration timeout = Duration.ofSeconds(1);
            try (SocketTransport it = new SocketTransport(List.of(address), timeout, null)) {
                ReplyLostException why =
                        assertThrows(ReplyLostException.class, () -> registered(it));
                assertTrue(why.getMessage(), why.getMessage().endsWith(": Starting"));
            }
        }
    }

    /** A server that sends this in place of each reply, and closes the connection. */
    private static ServerSocket telling(String line) throws IOException {
        ServerSocket it = new ServerSocket(0, 50, InetAddress.getLoopbackAddress());
        start(() -> {
            while (true) {
                try (Socket client = it.accept()) {
                    client.getInputStream().readNBytes(Layout.HEADER_SIZE);
                    client.getOutputStream().write(line.getBytes(US_ASCII));
                }
            }
        });
        return it;
    }

    @Test(timeout = 30_000)
    public void whatIsToldHasNoCodesOfATerminal() throws IOException {
        try (ServerSocket wrong = telling("tb_listen: \033[2J\033]0;x\007\n")) {
            Address place = Address.tcp("127.0.0.1", wrong.getLocalPort());
            ReplyLostException why = assertThrows(
                    ReplyLostException.class, () -> registered(new SocketTransport(place)));
            assertEquals("?[2J?]0;x?", why.told());
            assertTrue(why.getMessage(), why.getMessage().endsWith(": " + why.told()));
        }
    }

    @Test(timeout = 30_000)
    public void theAddressIsNamedWhoseFaultIsTold() throws IOException {
        Address none = Address.unix("/nowhere/ledger.sock");
        Address other = Address.unix("/nowhere/other.sock");
        CannotConnectException why = assertThrows(CannotConnectException.class,
                () -> registered(new SocketTransport(List.of(other, none), SHORT, null)));
        assertTrue(why.getMessage(), why.getMessage().startsWith(none + ": "));
        try (ServerSocket starts = telling("tb_listen: Starting\n")) {
            Address place = Address.tcp("127.0.0.1", starts.getLocalPort());
            SocketTransport both = new SocketTransport(List.of(place, none), SHORT, null);
            why = assertThrows(CannotConnectException.class, () -> registered(both));
            String told = why.getMessage();
            assertEquals(told, told.contains("Starting"), told.startsWith(place + ": "));
        }
    }

    @Test(timeout = 60_000)
    public void aHostThatCannotBeLookedUpIsToldSo() {
        for (int time = 0; time < 2; time++) { // Java says less of it the second time
            UnknownHostException fault = assertThrows(
                    UnknownHostException.class, () -> InetAddress.getAllByName("no.invalid"));
            SocketTransport none = looking(host -> { throw fault; }, Duration.ofSeconds(1));
            String told =
                    assertThrows(CannotConnectException.class, () -> registered(none)).getMessage();
            String place = "ledger:" + port();
            assertTrue(told, told.startsWith(place + ": the host's name cannot be looked up"));
        }
    }

    private SocketTransport looking(Lookup.Resolver resolver, Duration timeout, Address... more) {
        List<Address> addresses = new ArrayList<>(List.of(Address.tcp("ledger", port())));
        addresses.addAll(List.of(more));
        return new SocketTransport(addresses, timeout, null, new Lookup(resolver));
    }

    @Test(timeout = 60_000)
    public void aNameServerThatDoesNotAnswerHoldsNoCall() throws Exception {
        CountDownLatch answers = new CountDownLatch(1);
        AtomicInteger lookups = new AtomicInteger();
        Lookup.Resolver late = host -> {
            lookups.incrementAndGet();
            try {
                answers.await();
            } catch (InterruptedException why) {
                throw new InterruptedIOException();
            }
            return new InetAddress[] {InetAddress.getLoopbackAddress()};
        };
        SocketTransport it = looking(late, SHORT);
        for (int time = 0; time < 5; time++) {
            String told =
                    assertThrows(CannotConnectException.class, () -> registered(it)).getMessage();
            assertTrue(told, told.endsWith(": the host's name was not looked up in time"));
        }
        CancelledException why = assertThrows(CancelledException.class,
                () -> Session.register(it, Ids.id(), ONCE, Duration.ofMillis(50)));
        assertFalse(why.mayHaveSent());
        Thread.currentThread().interrupt();
        assertThrows(CancelledException.class, () -> registered(it));
        assertTrue(Thread.interrupted());
        assertEquals(1, lookups.get()); // all wait for one, in one thread
        Address other = Address.tcp("127.0.0.1", port());
        Lookup.Resolver either =
                host -> host.equals("ledger") ? late.resolve(host) : InetAddress.getAllByName(host);
        registered(looking(either, Duration.ofSeconds(2), other)).close();
        answers.countDown();
        Session session = new Session(it, Ids.id(), ONCE);
        session.prepare(Operation.REGISTER, List.of());
        answered(session);
        session.close();
    }

    /** Repeats a request until it is answered: a busy computer may miss a short limit. */
    private static void answered(Session session) {
        Deadline most = Deadline.in(Duration.ofSeconds(20));
        while (true) {
            try {
                session.retry();
                return;
            } catch (ReplyLostException | CannotConnectException late) {
                assertFalse(late.getMessage(), most.isOver());
            }
        }
    }

    @Test(timeout = 30_000)
    public void aNumberOfAHostIsReadWithoutAThread() throws IOException {
        Map<String, Thread> threads = new ConcurrentHashMap<>();
        Lookup lookup = new Lookup(host -> {
            threads.put(host, Thread.currentThread());
            return new InetAddress[0];
        });
        List<String> numbers = List.of("127.0.0.1", "255.249.199.9", "::1", "fe80::1%lo", "a:b");
        List<String> names = List.of("256.0.0.1", "127.1", "1.2.3.4.5", "cafe", "ledger", "x:1");
        for (String it : Stream.of(numbers, names).flatMap(List::stream).toList()) {
            lookup.addresses(it, Deadline.in(null));
            boolean isNumber = numbers.contains(it);
            assertEquals(it, isNumber, threads.get(it) == Thread.currentThread());
        }
    }

    @Test(timeout = 30_000)
    public void aNameThatWasNotFoundIsLookedUpAgain() {
        AtomicInteger lookups = new AtomicInteger();
        SocketTransport it = looking(host -> {
            if (lookups.incrementAndGet() == 1) {
                throw new UnknownHostException(host);
            }
            return new InetAddress[] {InetAddress.getLoopbackAddress()};
        }, Duration.ofSeconds(20));
        registered(it).close();
        assertEquals(2, lookups.get());
    }

    @Test(timeout = 30_000)
    public void whatIsClosedStaysClosed() {
        Session session = registered(transport(Duration.ofSeconds(20)));
        session.close();
        session.close();
        assertThrows(ClosedException.class, () -> session.lookupAccounts(List.of(BigInteger.ONE)));
        assertEquals(1, connections.get());
    }

    /** Begins registers of a number of threads over a transport that does not reply. */
    private static List<Future<Session>> waiting(ExecutorService threads, Transport over, int count)
            throws InterruptedException {
        List<Future<Session>> found = new ArrayList<>();
        for (int at = 0; at < count; at++) {
            found.add(threads.submit(() -> registered(over)));
        }
        Thread.sleep(300); // until they wait
        return found;
    }

    @Test(timeout = 60_000)
    public void whoWaitsForATurnIsToldThatItIsClosed() throws Exception {
        ExecutorService threads = Executors.newFixedThreadPool(8);
        silent.set(8);
        SocketTransport transport = transport(Duration.ofSeconds(3));
        List<Future<Session>> calls = waiting(threads, transport, 8);
        while (silent.get() == 8) { // until the server has read the one that is sent
            Thread.sleep(1);
        }
        transport.close();
        threads.shutdown();
        int closed = 0;
        for (Future<Session> it : calls) {
            Throwable why = assertThrows(ExecutionException.class, it::get).getCause();
            closed += why instanceof ClosedException ? 1 : 0;
        }
        assertEquals(7, closed);
    }

    @Test(timeout = 30_000)
    public void whoConnectsIsToldThatItIsClosed() throws Exception {
        ExecutorService threads = Executors.newFixedThreadPool(1);
        List<Address> none = List.of(Address.unix("/nowhere/ledger.sock"));
        SocketTransport transport = new SocketTransport(none, Duration.ofHours(1), null);
        Future<Session> call = waiting(threads, transport, 1).get(0);
        transport.close();
        threads.shutdown();
        Throwable why = assertThrows(ExecutionException.class, call::get).getCause();
        assertTrue(why.toString(), why instanceof ClosedException);
    }

    @Test(timeout = 60_000)
    public void aThreadKeepsLittleMemoryOffTheHeap() throws IOException {
        BufferPoolMXBean direct = ManagementFactory.getPlatformMXBeans(BufferPoolMXBean.class)
                                          .stream()
                                          .filter(it -> it.getName().equals("direct"))
                                          .findFirst()
                                          .orElseThrow();
        long before = direct.getMemoryUsed();
        Path folder = Files.createTempDirectory("tbclient");
        try (Session session = registered(transport(Duration.ofSeconds(20)))) {
            Transfer sale = Transfer.builder().id(11).amount(5).build();
            session.prepare(Operation.CREATE_TRANSFERS, Collections.nCopies(8190, sale));
            session.save(folder.resolve("session.json"));
            session.retry();
        } finally {
            Files.delete(folder.resolve("session.json"));
            Files.delete(folder);
        }
        long more = direct.getMemoryUsed() - before;
        assertTrue(more + " bytes", more < 500_000);
    }

    @Test(timeout = 60_000)
    public void threadsShareATransportAndSessions() throws Exception {
        ExecutorService threads = Executors.newFixedThreadPool(24);
        try (SocketTransport transport = transport(Duration.ofSeconds(20))) {
            List<Session> sessions = List.of(registered(transport), registered(transport));
            List<Future<?>> calls = new ArrayList<>();
            for (int at = 0; at < 480; at++) {
                Session session = sessions.get(at % 2);
                calls.add(threads.submit(() -> session.lookupAccounts(List.of(BigInteger.ONE))));
            }
            for (Future<?> it : calls) {
                it.get();
            }
            assertEquals(240, sessions.get(0).number());
            assertEquals(240, sessions.get(1).number());
            assertEquals(1, connections.get());
        } finally {
            threads.shutdownNow();
        }
    }

    @Test
    public void addressesAreTheSameWhereTheyLeadToOnePlace() {
        Address port = Address.tcp("ledger", 3001);
        assertEquals(port, Address.tcp("ledger", 3001));
        assertEquals(port.hashCode(), Address.tcp("ledger", 3001).hashCode());
        assertEquals(Address.unix("a/b"), Address.unix(Path.of("a/b")));
        assertNotEquals(port, Address.tcp("ledger", 3002));
        assertNotEquals(port, Address.unix("ledger:3001"));
        assertNotEquals(Address.unix("a"), Address.unix("b"));
    }

    @Test
    public void aPathWithinAZipFileIsNoAddress() throws IOException {
        Path zip = Files.createTempDirectory("tbclient").resolve("a.zip");
        try (FileSystem inside = FileSystems.newFileSystem(zip, Map.of("create", "true"))) {
            invalid("address", () -> Address.unix(inside.getPath("ledger.sock")));
        } finally {
            Files.deleteIfExists(zip);
            Files.delete(zip.getParent());
        }
    }

    @Test
    public void wrongArgumentsAreRefused() {
        invalid("address", () -> new SocketTransport((Address) null));
        invalid("address", () -> new SocketTransport(List.of(), SHORT, null));
        invalid("timeout", () -> transport(Duration.ZERO));
        invalid("timeout", () -> transport(null));
        invalid("port", () -> Address.tcp("localhost", 0));
        invalid("port", () -> Address.tcp("localhost", 65536));
        invalid("address", () -> Address.tcp(" ", 1));
        invalid("address", () -> Address.unix(""));
        invalid("address", () -> Address.unix("a\0b"));
        invalid("authorities", () -> Tls.context(null));
        assertThrows(FileException.class, () -> Tls.context(Path.of("none.pem")));
    }

    private static void invalid(String field, Runnable call) {
        assertEquals(field, assertThrows(InvalidValueException.class, call::run).field());
    }
}
