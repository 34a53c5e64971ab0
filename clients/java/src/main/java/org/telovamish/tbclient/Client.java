package org.telovamish.tbclient;

import java.math.BigInteger;
import java.nio.file.Path;
import java.time.Duration;
import java.util.List;
import java.util.concurrent.CompletableFuture;
import java.util.concurrent.ExecutionException;
import java.util.concurrent.TimeUnit;
import java.util.concurrent.TimeoutException;
import java.util.function.Function;
import java.util.function.Supplier;

/**
 * A client that threads share, with the calls of TigerBeetle's own. Lists of calls that wait while
 * a request is in flight go out as the next request, and each call gets its own results.
 *
 * <p>A call waits until its reply is there, whatever is lost and whoever ends meanwhile. One with a
 * {@code within} ends then as {@link CancelledException}, and so does one whose thread is
 * interrupted. An {@code Async} call ends when its future is cancelled or times out. One call that
 * ends does not disturb the others. A session that was evicted is replaced, and what was in doubt
 * then is settled.
 *
 * <p>Nothing outlives the process: for requests that have to survive it, use a {@link Session} and
 * {@link Session#save}.
 */
public final class Client implements AutoCloseable {
    private static final BigInteger LOWER = BigInteger.ONE.shiftLeft(64).subtract(BigInteger.ONE);

    private final String place;
    private final Pool pool;

    /**
     * A client. It connects nothing yet.
     *
     * @param clusterId 16 bytes of any number: a server has no such id, and it is not sent
     * @param replicaAddresses ports ("3000"), hosts with or without a port ("10.0.0.1:3000"), or
     *     paths of Unix sockets, which have a slash. All have to serve one ledger
     */
    public Client(byte[] clusterId, String[] replicaAddresses) {
        this(clusterId, replicaAddresses, ClientOptions.DEFAULT);
    }

    /**
     * A client with options. It connects nothing yet.
     *
     * @param clusterId 16 bytes of any number: a server has no such id, and it is not sent
     * @param replicaAddresses as without options
     * @param options how it works
     */
    public Client(byte[] clusterId, String[] replicaAddresses, ClientOptions options) {
        Values.wide("clusterId", clusterId);
        List<Address> addresses =
                Address.parsed(Values.given("replicaAddresses", replicaAddresses));
        ClientOptions given = Values.given("options", options);
        Supplier<Transport> connect =
                () -> new SocketTransport(addresses, given.timeout(), given.tls());
        connect.get(); // which refuses what it cannot take
        place = addresses.toString();
        pool = new Pool(connect, ids(given.clientRange()), given.sessions());
    }

    private Client(Path file, LedgerFile ledger) {
        place = file.toString();
        pool = new Pool(() -> ledger, Ids::id, 1);
        pool.begin();
    }

    /**
     * Opens the ledger in a file, which is made if it is not there.
     *
     * @param file the file
     * @return its client
     */
    public static Client open(Path file) {
        return open(file, OpenOptions.DEFAULT);
    }

    /**
     * Opens the ledger in a file, and returns its client once the file was read.
     *
     * <p>{@code tbd} serves the file as a child of this process. If it is killed, it is started
     * again, and calls go on: a call that waits gets its first reply. It ends with this process.
     * A fault of tbd is a {@link ProgramEndedException}, here or of a call, and the next call
     * starts tbd again.
     *
     * @param file the file
     * @param options how it is opened
     * @return its client
     * @throws LockedException if another process has the file open
     * @throws ProgramEndedException if tbd cannot serve the file
     * @throws CannotStartException if tbd is not found
     * @throws ClockJumpedException if the ledger's last time is far ahead
     * @throws CancelledException if the thread is interrupted
     */
    public static Client open(Path file, OpenOptions options) {
        return opened(file, new LedgerFile(file, options));
    }

    /**
     * Opens the ledger in a file, and does not wait for it.
     *
     * @param file the file
     * @param options how it is opened
     * @return what will be its client. If it is cancelled, the opening ends
     */
    public static CompletableFuture<Client> openAsync(Path file, OpenOptions options) {
        LedgerFile ledger = new LedgerFile(file, options);
        CompletableFuture<Client> own = new CompletableFuture<>();
        own.whenComplete((client, why) -> {
            if (why != null) {
                ledger.startNoMore();
            }
        });
        Thread thread = new Thread(() -> {
            try {
                Client client = opened(file, ledger);
                if (!own.complete(client)) {
                    client.close();
                }
            } catch (RuntimeException | Error why) {
                own.completeExceptionally(why);
            }
        }, "tbclient-open");
        thread.setDaemon(true);
        thread.start();
        return own;
    }

    private static Client opened(Path file, LedgerFile ledger) {
        try {
            ledger.open();
        } catch (RuntimeException | Error why) {
            ledger.close();
            throw why;
        }
        return new Client(file, ledger);
    }

    /**
     * The client of a ledger that listens. It connects when it is first asked.
     *
     * @param addresses a port ("3001"), the path of a Unix socket, which has a slash
     *     ("./ledger.sock"), or several machines ("10.0.0.1:3001,10.0.0.2:3001")
     * @return the client
     */
    public static Client connect(String addresses) {
        return connect(addresses, ClientOptions.DEFAULT);
    }

    /**
     * The client of a ledger that listens. It connects when it is first asked.
     *
     * @param addresses as without options
     * @param options how it works
     * @return the client
     */
    public static Client connect(String addresses, ClientOptions options) {
        String[] given = {Values.given("addresses", addresses)};
        return new Client(UInt128.asBytes(0), given, options);
    }

    private static Supplier<BigInteger> ids(Long range) {
        if (range == null) {
            return Ids::id;
        }
        BigInteger upper = Values.unsigned(range).shiftLeft(64);
        return () -> upper.or(Ids.id().and(LOWER)).max(BigInteger.ONE);
    }

    /**
     * Creates accounts.
     *
     * @param accounts at most 8190
     * @return the results of those that were not created, by rising index
     */
    public CreateAccountResultBatch createAccounts(AccountBatch accounts) {
        return createAccounts(accounts, null);
    }

    /**
     * Creates accounts.
     *
     * @param accounts at most 8190
     * @param within the limit of this call, or null
     * @return the results of those that were not created, by rising index
     */
    public CreateAccountResultBatch createAccounts(AccountBatch accounts, Duration within) {
        return accountResults(ask(Operation.CREATE_ACCOUNTS, accounts, within));
    }

    /**
     * Creates accounts, and does not wait for it.
     *
     * @param accounts at most 8190
     * @return what will be the results of those that were not created
     */
    public CompletableFuture<CreateAccountResultBatch> createAccountsAsync(AccountBatch accounts) {
        return begin(Operation.CREATE_ACCOUNTS, accounts, Client::accountResults);
    }

    /**
     * Makes transfers.
     *
     * @param transfers at most 8190
     * @return the results of those that were not made, by rising index
     */
    public CreateTransferResultBatch createTransfers(TransferBatch transfers) {
        return createTransfers(transfers, null);
    }

    /**
     * Makes transfers.
     *
     * @param transfers at most 8190
     * @param within the limit of this call, or null
     * @return the results of those that were not made, by rising index
     */
    public CreateTransferResultBatch createTransfers(TransferBatch transfers, Duration within) {
        return transferResults(ask(Operation.CREATE_TRANSFERS, transfers, within));
    }

    /**
     * Makes transfers, and does not wait for it.
     *
     * @param transfers at most 8190
     * @return what will be the results of those that were not made
     */
    public CompletableFuture<CreateTransferResultBatch> createTransfersAsync(
            TransferBatch transfers) {
        return begin(Operation.CREATE_TRANSFERS, transfers, Client::transferResults);
    }

    /**
     * Looks accounts up.
     *
     * @param ids at most 8190
     * @return the accounts that exist, in the order of the ids
     */
    public AccountBatch lookupAccounts(IdBatch ids) {
        return lookupAccounts(ids, null);
    }

    /**
     * Looks accounts up.
     *
     * @param ids at most 8190
     * @param within the limit of this call, or null
     * @return the accounts that exist, in the order of the ids
     */
    public AccountBatch lookupAccounts(IdBatch ids, Duration within) {
        return accounts(ask(Operation.LOOKUP_ACCOUNTS, ids, within));
    }

    /**
     * Looks accounts up, and does not wait for it.
     *
     * @param ids at most 8190
     * @return what will be the accounts that exist
     */
    public CompletableFuture<AccountBatch> lookupAccountsAsync(IdBatch ids) {
        return begin(Operation.LOOKUP_ACCOUNTS, ids, Client::accounts);
    }

    /**
     * Looks transfers up.
     *
     * @param ids at most 8190
     * @return the transfers that exist, in the order of the ids
     */
    public TransferBatch lookupTransfers(IdBatch ids) {
        return lookupTransfers(ids, null);
    }

    /**
     * Looks transfers up.
     *
     * @param ids at most 8190
     * @param within the limit of this call, or null
     * @return the transfers that exist, in the order of the ids
     */
    public TransferBatch lookupTransfers(IdBatch ids, Duration within) {
        return transfers(ask(Operation.LOOKUP_TRANSFERS, ids, within));
    }

    /**
     * Looks transfers up, and does not wait for it.
     *
     * @param ids at most 8190
     * @return what will be the transfers that exist
     */
    public CompletableFuture<TransferBatch> lookupTransfersAsync(IdBatch ids) {
        return begin(Operation.LOOKUP_TRANSFERS, ids, Client::transfers);
    }

    private static CreateAccountResultBatch accountResults(Answer said) {
        return new CreateAccountResultBatch(((Answer.AccountResults) said).results());
    }

    private static CreateTransferResultBatch transferResults(Answer said) {
        return new CreateTransferResultBatch(((Answer.TransferResults) said).results());
    }

    private static AccountBatch accounts(Answer said) {
        return AccountBatch.of(((Answer.Accounts) said).accounts());
    }

    private static TransferBatch transfers(Answer said) {
        return TransferBatch.of(((Answer.Transfers) said).transfers());
    }

    private static Call call(Operation operation, Batch batch) {
        String name = Frames.itemsName(operation);
        return new Call(operation, Values.given(name, batch).body(name));
    }

    private Answer ask(Operation operation, Batch batch, Duration within) {
        Deadline limit = Deadline.in(within);
        Call call = call(operation, batch);
        if (limit.isOver()) {
            throw Deadline.late(false);
        }
        pool.ask(call);
        try {
            return call.future.get(limit.left(), TimeUnit.NANOSECONDS);
        } catch (ExecutionException why) {
            throw failure(why.getCause());
        } catch (TimeoutException why) {
            return late(call, "the limit of the call went by");
        } catch (InterruptedException why) {
            Thread.currentThread().interrupt();
            return late(call, "the thread was interrupted");
        }
    }

    /** The answer that came at that moment, or what became of a call whose caller leaves. */
    private Answer late(Call call, String why) {
        boolean isSent = pool.leave(call);
        if (call.future.isDone() && !call.future.isCompletedExceptionally()) {
            return call.future.join();
        }
        throw new CancelledException(why + pool.trouble(), isSent);
    }

    private static RuntimeException failure(Throwable why) {
        if (why instanceof Error it) {
            throw it;
        }
        return (RuntimeException) why;
    }

    private <T> CompletableFuture<T> begin(
            Operation operation, Batch batch, Function<Answer, T> shown) {
        Call call = call(operation, batch);
        CompletableFuture<T> own = new CompletableFuture<>();
        own.whenComplete((said, why) -> pool.leave(call)); // which may be the caller's cancel
        pool.ask(call);
        call.future.whenComplete((said, why) -> {
            if (why != null) {
                own.completeExceptionally(why);
            } else {
                own.complete(shown.apply(said));
            }
        });
        return own;
    }

    /**
     * Closes the client. Requests in flight are waited for, as long as one sending may take; calls
     * of which nothing was sent are a {@link ClosedException}.
     */
    @Override
    public void close() {
        pool.close();
    }

    @Override
    public String toString() {
        return "Client of " + place;
    }
}
