package org.telovamish.tbclient;

import com.sun.management.OperatingSystemMXBean;
import java.lang.management.ManagementFactory;
import java.util.ArrayList;
import java.util.List;
import java.util.concurrent.CompletableFuture;
import java.util.concurrent.ExecutorService;
import java.util.concurrent.Executors;
import java.util.concurrent.Future;
import java.util.concurrent.atomic.LongAdder;

/** How many transfers a second this client makes: clients/throughput.py runs it. */
public final class Throughput {
    private static final double WARM = 3; // seconds, until Java has compiled what is measured

    private Throughput() {}

    /** What calls until a moment of System.nanoTime, and counts its calls. */
    private interface Caller {
        void callUntil(long end, LongAdder count) throws Exception;
    }

    private static Transfer transfer() {
        Transfer.Builder it = Transfer.builder().debitAccountId(1).creditAccountId(2).amount(1);
        return it.id(UInt128.id()).ledger(700).code(10).build();
    }

    private static List<Transfer> records(int count) {
        List<Transfer> records = new ArrayList<>(count);
        for (int at = 0; at < count; at++) {
            records.add(transfer());
        }
        return records;
    }

    private static TransferBatch batch(int count) {
        TransferBatch batch = new TransferBatch(count);
        for (int at = 0; at < count; at++) {
            batch.add();
            batch.setId(UInt128.id());
            batch.setDebitAccountId(1);
            batch.setCreditAccountId(2);
            batch.setAmount(1);
            batch.setLedger(700);
            batch.setCode(10);
        }
        return batch;
    }

    private static Session session(String path) {
        Session session = Session.register(new SocketTransport(Address.unix(path)));
        Account.Builder account = Account.builder().ledger(700).code(10);
        session.createAccounts(List.of(account.id(1).build(), account.id(2).build()));
        return session;
    }

    /** A thread that calls again and again, and waits for each reply. */
    private static Caller waiting(Runnable request) {
        return (end, count) -> {
            while (System.nanoTime() < end) {
                request.run();
                count.increment();
            }
        };
    }

    /** So many tasks of a client, none of which is a thread. */
    private static Caller tasks(Client client, int tasks, int items) {
        return (end, count) -> {
            List<CompletableFuture<Void>> all = new ArrayList<>();
            for (int at = 0; at < tasks; at++) {
                all.add(again(client, items, end, count));
            }
            CompletableFuture.allOf(all.toArray(CompletableFuture[] ::new)).get();
        };
    }

    private static CompletableFuture<Void> again(
            Client client, int items, long end, LongAdder count) {
        if (System.nanoTime() >= end) {
            return CompletableFuture.completedFuture(null);
        }
        return client.createTransfersAsync(batch(items)).thenComposeAsync(results -> {
            count.increment();
            return again(client, items, end, count);
        });
    }

    private static List<Caller> callers(String kind, String path, int callers, int items) {
        session(path);
        List<Caller> all = new ArrayList<>();
        if (kind.equals("shared")) {
            return List.of(tasks(Client.connect(path), callers, items));
        }
        for (int at = 0; at < callers; at++) {
            if (kind.equals("sessions")) {
                Session session = session(path);
                all.add(waiting(() -> Session.requireOk(session.createTransfers(records(items)))));
            } else if (kind.equals("columns")) {
                Client client = Client.connect(path);
                all.add(waiting(() -> client.createTransfers(batch(items))));
            } else {
                throw new IllegalArgumentException(kind + ": sessions, columns or shared");
            }
        }
        return all;
    }

    private static long repeat(List<Caller> callers, double seconds) throws Exception {
        LongAdder count = new LongAdder();
        long end = System.nanoTime() + (long) (1e9 * seconds);
        ExecutorService threads = Executors.newFixedThreadPool(callers.size());
        List<Future<?>> work = new ArrayList<>();
        for (Caller it : callers) {
            work.add(threads.submit(() -> {
                it.callUntil(end, count);
                return null;
            }));
        }
        for (Future<?> it : work) {
            it.get();
        }
        threads.shutdown();
        return count.sum();
    }

    /**
     * Prints transfers a second, and CPU microseconds for each.
     *
     * @param words sessions, columns (a client with batches for each caller) or shared (tasks of
     *     one client); the socket's path; how many callers, transfers a call, seconds
     * @throws Exception if one fails
     */
    public static void main(String[] words) throws Exception {
        int items = Integer.parseInt(words[3]);
        List<Caller> all = callers(words[0], words[1], Integer.parseInt(words[2]), items);
        repeat(all, WARM);
        OperatingSystemMXBean system =
                (OperatingSystemMXBean) ManagementFactory.getOperatingSystemMXBean();
        long began = System.nanoTime();
        long used = system.getProcessCpuTime();
        double transfers = (double) items * repeat(all, Double.parseDouble(words[4]));
        double spent = (system.getProcessCpuTime() - used) / 1e3;
        System.out.println(
                transfers / ((System.nanoTime() - began) / 1e9) + " " + spent / transfers);
        System.exit(0); // connections are open
    }
}
