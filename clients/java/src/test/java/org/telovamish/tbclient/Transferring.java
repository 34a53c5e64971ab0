package org.telovamish.tbclient;

import java.io.IOException;
import java.io.OutputStream;
import java.math.BigInteger;
import java.nio.file.Files;
import java.nio.file.Path;
import java.nio.file.StandardOpenOption;
import java.time.Duration;
import java.util.ArrayList;
import java.util.Iterator;
import java.util.List;
import java.util.Set;
import java.util.stream.Collectors;
import java.util.stream.IntStream;

/**
 * The program that {@link KillsTest} kills: it makes transfers through {@link Client#open}, by
 * threads that share a client.
 */
final class Transferring {
    private static final int THREADS = 4;
    private static final int REFUSED = 3; // a status

    private final Client ledger;
    private final Iterator<Integer> ids;
    private final int doubtful; // up to which id a former process may have made a transfer
    private final OutputStream made;

    private Transferring(Client ledger, Iterator<Integer> ids, int doubtful, OutputStream made) {
        this.ledger = ledger;
        this.ids = ids;
        this.doubtful = doubtful;
        this.made = made;
    }

    /** The ids whose calls returned. */
    static Set<Integer> madeBy(Path path) throws IOException {
        if (!Files.exists(path)) {
            return Set.of();
        }
        String text = Files.readString(path);
        return text.substring(0, text.lastIndexOf('\n') + 1)
                .lines()
                .map(Integer::valueOf)
                .collect(Collectors.toSet());
    }

    /** Ids are taken in their order: at most one a thread is in doubt in a kill. */
    private int next() {
        synchronized (ids) {
            return ids.hasNext() ? ids.next() : 0;
        }
    }

    private void make() {
        for (int id = next(); id != 0; id = next()) {
            var results = ledger.createTransfers(Keepers.sale(BigInteger.valueOf(id)));
            if (results.next()) {
                boolean isDone = results.getResult() == CreateTransferResult.EXISTS;
                if (!isDone || id > doubtful) {
                    System.err.println("transfer " + id + ": " + results.getResult());
                    Runtime.getRuntime().halt(REFUSED);
                }
            }
            try {
                made.write((id + "\n").getBytes());
            } catch (IOException why) {
                throw new IllegalStateException(why);
            }
        }
    }

    /**
     * Makes transfers with the ids 1 to COUNT. The id of each is a line of MADE once its call has
     * returned; those are not made again. Ends with status 3 if a transfer is refused that no
     * former process can have made. When all are made it waits for the end of its input: it is
     * there to be killed.
     *
     * @param words FILE PROGRAM COUNT MADE
     * @throws Exception if one fails
     */
    public static void main(String[] words) throws Exception {
        Path path = Path.of(words[3]);
        Set<Integer> done = madeBy(path);
        List<Integer> left = IntStream.rangeClosed(1, Integer.parseInt(words[2]))
                                     .filter(it -> !done.contains(it))
                                     .boxed()
                                     .toList();
        OpenOptions options = OpenOptions.DEFAULT.withProgram(Path.of(words[1]))
                                      .withReport(line -> {})
                                      .withLockTimeout(Duration.ofMinutes(1))
                                      .withDropTorn();
        try (OutputStream made = Files.newOutputStream(
                     path, StandardOpenOption.CREATE, StandardOpenOption.APPEND);
                Client ledger = Client.open(Path.of(words[0]), options)) {
            ledger.createAccounts(Keepers.accounts());
            Transferring it =
                    new Transferring(ledger, left.iterator(), done.size() + THREADS, made);
            List<Thread> threads = new ArrayList<>();
            for (int at = 0; at < THREADS; at++) {
                threads.add(new Thread(it::make));
            }
            threads.forEach(Thread::start);
            for (Thread thread : threads) {
                thread.join();
            }
            System.in.readAllBytes();
        }
    }
}
