package org.telovamish.tbclient;

import java.math.BigInteger;
import java.time.Duration;
import java.util.ArrayList;
import java.util.List;
import java.util.concurrent.CancellationException;
import java.util.concurrent.CompletableFuture;
import java.util.concurrent.ExecutionException;
import java.util.concurrent.TimeUnit;
import java.util.concurrent.TimeoutException;

/** What the runner for the conformance kit asks of clients that callers share. */
final class SharedRunner {
    /** The caller left, or its limit went by: an error without {@code sent}. */
    static final class Left extends RuntimeException {
        private static final long serialVersionUID = 1L;
    }

    private SharedRunner() {}

    static Answer ask(Client client, Operation operation, List<?> items, Duration within) {
        switch (operation) {
            case CREATE_ACCOUNTS:
                return results(client.createAccounts(accounts(items), within));
            case CREATE_TRANSFERS:
                return results(client.createTransfers(transfers(items), within));
            case LOOKUP_ACCOUNTS:
                return records(client.lookupAccounts(ids(items), within));
            default:
                return records(client.lookupTransfers(ids(items), within));
        }
    }

    /** What begins a call: the future that a caller may cancel, and its answer. */
    record Begun(CompletableFuture<?> future) {
        Answer end() {
            try {
                Object said = future.get();
                if (said instanceof CreateAccountResultBatch it) {
                    return results(it);
                }
                if (said instanceof CreateTransferResultBatch it) {
                    return results(it);
                }
                return said instanceof AccountBatch it ? records(it)
                                                       : records((TransferBatch) said);
            } catch (CancellationException why) {
                throw new Left();
            } catch (ExecutionException why) {
                if (why.getCause() instanceof TimeoutException) {
                    throw new Left();
                }
                throw(RuntimeException) why.getCause();
            } catch (InterruptedException why) {
                throw new IllegalStateException(why);
            }
        }
    }

    static Begun begin(Client client, Operation operation, List<?> items, Duration within) {
        CompletableFuture<?> future;
        switch (operation) {
            case CREATE_ACCOUNTS:
                future = client.createAccountsAsync(accounts(items));
                break;
            case CREATE_TRANSFERS:
                future = client.createTransfersAsync(transfers(items));
                break;
            case LOOKUP_ACCOUNTS:
                future = client.lookupAccountsAsync(ids(items));
                break;
            default:
                future = client.lookupTransfersAsync(ids(items));
        }
        if (within != null) {
            future.orTimeout(within.toNanos(), TimeUnit.NANOSECONDS);
        }
        return new Begun(future);
    }

    private static AccountBatch accounts(List<?> items) {
        AccountBatch batch = new AccountBatch(0);
        items.forEach(it -> batch.add((Account) it));
        return batch;
    }

    private static TransferBatch transfers(List<?> items) {
        TransferBatch batch = new TransferBatch(0);
        items.forEach(it -> batch.add((Transfer) it));
        return batch;
    }

    private static IdBatch ids(List<?> items) {
        IdBatch batch = new IdBatch(0);
        items.forEach(it -> batch.add((BigInteger) it));
        return batch;
    }

    private static Answer results(CreateAccountResultBatch batch) {
        List<EventResult<CreateAccountResult>> found = new ArrayList<>();
        while (batch.next()) {
            found.add(new EventResult<>(batch.getIndex(), batch.getResult()));
        }
        return new Answer.AccountResults(found);
    }

    private static Answer results(CreateTransferResultBatch batch) {
        List<EventResult<CreateTransferResult>> found = new ArrayList<>();
        while (batch.next()) {
            found.add(new EventResult<>(batch.getIndex(), batch.getResult()));
        }
        return new Answer.TransferResults(found);
    }

    private static Answer records(AccountBatch batch) {
        List<Account> found = new ArrayList<>();
        while (batch.next()) {
            found.add(batch.get());
        }
        return new Answer.Accounts(found);
    }

    private static Answer records(TransferBatch batch) {
        List<Transfer> found = new ArrayList<>();
        while (batch.next()) {
            found.add(batch.get());
        }
        return new Answer.Transfers(found);
    }
}
