package org.telovamish.tbclient;

import java.io.ByteArrayOutputStream;
import java.math.BigInteger;
import java.util.ArrayList;
import java.util.Arrays;
import java.util.HashMap;
import java.util.HashSet;
import java.util.List;
import java.util.Map;
import java.util.Set;
import java.util.function.BiFunction;
import java.util.function.Function;
import java.util.stream.Collectors;
import java.util.stream.IntStream;

/**
 * Lists that go out as one request: what its reply says for each, and what a chain did that was
 * made before.
 */
final class Joint {
    private static final int RESOLVING =
            TransferFlags.POST_PENDING_TRANSFER | TransferFlags.VOID_PENDING_TRANSFER;
    private static final int BALANCING =
            TransferFlags.BALANCING_DEBIT | TransferFlags.BALANCING_CREDIT;

    private Joint() {}

    static boolean isCreate(Operation operation) {
        return operation == Operation.CREATE_ACCOUNTS || operation == Operation.CREATE_TRANSFERS;
    }

    /** Whether the event at this place of a body is linked with the next one. */
    static boolean isLinked(byte[] body, int event) {
        int at = event * Layout.RECORD_SIZE + Layout.TRANSFER_FLAGS;
        return (Values.u16(body, at) & TransferFlags.LINKED) != 0;
    }

    static byte[] body(List<byte[]> bodies) {
        if (bodies.size() == 1) {
            return bodies.get(0);
        }
        ByteArrayOutputStream all = new ByteArrayOutputStream();
        bodies.forEach(all::writeBytes);
        return all.toByteArray();
    }

    // What the reply says of each list

    static List<Answer> split(Operation operation, List<byte[]> bodies, Answer said) {
        if (bodies.size() == 1) {
            return List.of(said);
        }
        if (said instanceof Answer.AccountResults it) {
            return results(bodies, it.results(), Answer.AccountResults::new);
        }
        if (said instanceof Answer.TransferResults it) {
            return results(bodies, it.results(), Answer.TransferResults::new);
        }
        if (said instanceof Answer.Accounts it) {
            return records(bodies, it.accounts(), Account::data, Answer.Accounts::new);
        }
        List<Transfer> found = ((Answer.Transfers) said).transfers();
        return records(bodies, found, Transfer::data, Answer.Transfers::new);
    }

    private static <R extends ResultCode> List<Answer> results(List<byte[]> bodies,
            List<EventResult<R>> all, Function<List<EventResult<R>>, Answer> make) {
        List<Answer> answers = new ArrayList<>();
        int first = 0;
        int at = 0;
        for (byte[] body : bodies) {
            int end = first + body.length / Layout.RECORD_SIZE;
            List<EventResult<R>> own = new ArrayList<>();
            for (; at < all.size() && all.get(at).index() < end; at++) {
                own.add(new EventResult<>(all.get(at).index() - first, all.get(at).result()));
            }
            answers.add(make.apply(own));
            first = end;
        }
        return answers;
    }

    /** Records come in the order of the ids, and an id that is not there has no record. */
    private static <T> List<Answer> records(List<byte[]> bodies, List<T> all,
            Function<T, byte[]> data, Function<List<T>, Answer> make) {
        List<Answer> answers = new ArrayList<>();
        int at = 0;
        for (byte[] ids : bodies) {
            List<T> own = new ArrayList<>();
            for (int id = 0; id < ids.length; id += Layout.ID_SIZE) {
                int end = id + Layout.ID_SIZE;
                if (at < all.size()
                        && Arrays.equals(
                                data.apply(all.get(at)), 0, Layout.ID_SIZE, ids, id, end)) {
                    own.add(all.get(at));
                    at++;
                }
            }
            answers.add(make.apply(own));
        }
        return answers;
    }

    // A request that may have been executed before, in a session that has ended

    private record Chain(int first, int end) {
        IntStream events() {
            return IntStream.range(first, end);
        }
    }

    /** The chains of two events or more. */
    private static List<Chain> chains(byte[] body) {
        List<Chain> found = new ArrayList<>();
        int first = 0;
        for (int event = 0; event < body.length / Layout.RECORD_SIZE; event++) {
            if (isLinked(body, event)) {
                continue;
            }
            if (event > first) {
                found.add(new Chain(first, event + 1));
            }
            first = event + 1;
        }
        return found;
    }

    /**
     * The answer to a create that may have been executed before. A chain that was is refused now,
     * because its first event exists; if all its events are there as they were asked for, each of
     * them exists.
     */
    static Answer settled(byte[] body, Answer said, BiFunction<Operation, byte[], Answer> lookUp) {
        if (said instanceof Answer.AccountResults it) {
            Function<byte[], List<byte[]>> found = ids
                    -> ((Answer.Accounts) lookUp.apply(Operation.LOOKUP_ACCOUNTS, ids))
                               .accounts()
                               .stream()
                               .map(Account::data)
                               .toList();
            return new Answer.AccountResults(
                    settled(body, it.results(), found, CreateAccountResult.EXISTS, true));
        }
        List<EventResult<CreateTransferResult>> results = ((Answer.TransferResults) said).results();
        Function<byte[], List<byte[]>> found = ids
                -> ((Answer.Transfers) lookUp.apply(Operation.LOOKUP_TRANSFERS, ids))
                           .transfers()
                           .stream()
                           .map(Transfer::data)
                           .toList();
        return new Answer.TransferResults(
                settled(body, results, found, CreateTransferResult.EXISTS, false));
    }

    private static <R extends ResultCode> List<EventResult<R>> settled(byte[] body,
            List<EventResult<R>> results, Function<byte[], List<byte[]>> lookUp, R exists,
            boolean areAccounts) {
        Map<Integer, String> names = new HashMap<>();
        results.forEach(it -> names.put(it.index(), it.result().label()));
        List<Chain> doubtful = chains(body).stream().filter(it -> isDoubtful(it, names)).toList();
        if (doubtful.isEmpty()) {
            return results;
        }
        ByteArrayOutputStream ids = new ByteArrayOutputStream();
        doubtful.stream()
                .flatMapToInt(Chain::events)
                .forEach(it -> ids.write(body, it * Layout.RECORD_SIZE, Layout.ID_SIZE));
        Map<BigInteger, byte[]> there =
                lookUp.apply(ids.toByteArray())
                        .stream()
                        .collect(Collectors.toMap(it -> Values.u128(it, 0), it -> it, (a, b) -> a));
        Set<Integer> done = new HashSet<>();
        for (Chain it : doubtful) {
            if (it.events().allMatch(event -> isAsAsked(record(body, event), there, areAccounts))) {
                it.events().forEach(done::add);
            }
        }
        return results.stream()
                .map(it -> done.contains(it.index()) ? new EventResult<>(it.index(), exists) : it)
                .toList();
    }

    private static boolean isDoubtful(Chain chain, Map<Integer, String> names) {
        return "exists".equals(names.get(chain.first()))
                && chain.events().skip(1).allMatch(
                        it -> "linked_event_failed".equals(names.get(it)));
    }

    private static byte[] record(byte[] body, int event) {
        int at = event * Layout.RECORD_SIZE;
        return Arrays.copyOfRange(body, at, at + Layout.RECORD_SIZE);
    }

    private static boolean isAsAsked(
            byte[] asked, Map<BigInteger, byte[]> there, boolean areAccounts) {
        byte[] found = there.get(Values.u128(asked, 0));
        if (found == null) {
            return false;
        }
        return areAccounts ? isAccountAsAsked(asked, found.clone())
                           : isTransferAsAsked(asked, found);
    }

    /** An account's sums have grown since then, and it may have been closed or opened. */
    private static boolean isAccountAsAsked(byte[] asked, byte[] found) {
        int sums = Layout.ACCOUNT_DEBITS_PENDING;
        System.arraycopy(found, sums, asked, sums, Layout.ACCOUNT_USER_DATA_128 - sums);
        System.arraycopy(found, Layout.ACCOUNT_TIMESTAMP, asked, Layout.ACCOUNT_TIMESTAMP, 8);
        asked[Layout.ACCOUNT_FLAGS] |= AccountFlags.CLOSED;
        found[Layout.ACCOUNT_FLAGS] |= AccountFlags.CLOSED;
        return Arrays.equals(asked, found);
    }

    /**
     * A post or void takes from its pending transfer what it leaves out; a balancing transfer moves
     * what the account had.
     */
    private static boolean isTransferAsAsked(byte[] asked, byte[] found) {
        int flags = Values.u16(asked, Layout.TRANSFER_FLAGS);
        System.arraycopy(found, Layout.TRANSFER_TIMESTAMP, asked, Layout.TRANSFER_TIMESTAMP, 8);
        if ((flags & (RESOLVING | BALANCING)) != 0) {
            System.arraycopy(found, Layout.TRANSFER_AMOUNT, asked, Layout.TRANSFER_AMOUNT, 16);
        }
        if ((flags & RESOLVING) != 0) {
            takeIfZero(asked, found, Layout.TRANSFER_DEBIT_ACCOUNT_ID, 16);
            takeIfZero(asked, found, Layout.TRANSFER_CREDIT_ACCOUNT_ID, 16);
            takeIfZero(asked, found, Layout.TRANSFER_PENDING_ID, 16);
            takeIfZero(asked, found, Layout.TRANSFER_USER_DATA_128, 16);
            takeIfZero(asked, found, Layout.TRANSFER_USER_DATA_64, 8);
            takeIfZero(asked, found, Layout.TRANSFER_USER_DATA_32, 4);
            takeIfZero(asked, found, Layout.TRANSFER_TIMEOUT, 4);
            takeIfZero(asked, found, Layout.TRANSFER_LEDGER, 4);
            takeIfZero(asked, found, Layout.TRANSFER_CODE, 2);
        }
        return Arrays.equals(asked, found);
    }

    private static void takeIfZero(byte[] asked, byte[] found, int at, int size) {
        if (Arrays.equals(asked, at, at + size, new byte[size], 0, size)) {
            System.arraycopy(found, at, asked, at, size);
        }
    }
}
