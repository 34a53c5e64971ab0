package org.telovamish.tbclient;

import java.math.BigInteger;
import java.nio.charset.StandardCharsets;
import java.util.ArrayList;
import java.util.Arrays;
import java.util.List;
import java.util.UUID;
import java.util.function.Function;

/** Frames of requests and replies (docs/use/FORMATS.md). */
final class Frames {
    private static final byte REGISTER = (byte) Operation.REGISTER.code();

    private Frames() {}

    // Requests

    static byte[] request(
            BigInteger client, long session, long number, Operation kind, byte[] body) {
        byte[] frame = new byte[Layout.HEADER_SIZE + body.length];
        Values.putWide(frame, Layout.REQUEST_HEADER_CLIENT, client);
        Values.putLong(frame, Layout.REQUEST_HEADER_SESSION, session);
        Values.putInt(frame, Layout.REQUEST_HEADER_REQUEST, number);
        frame[Layout.REQUEST_HEADER_OPERATION] = (byte) kind.code();
        Values.putInt(frame, Layout.REQUEST_HEADER_LENGTH, body.length);
        System.arraycopy(body, 0, frame, Layout.HEADER_SIZE, body.length);
        return frame;
    }

    /** The body of a request: records of the kind that the operation takes, or ids. */
    static byte[] body(Operation operation, List<?> items) {
        String name = itemsName(Values.given("operation", operation));
        Object[] given = Values.given(name, items).toArray(); // as they are now
        if (operation == Operation.REGISTER && given.length > 0) {
            throw new InvalidValueException(name, "of a register must be empty");
        }
        if (given.length > Layout.ITEMS_MAX) {
            throw new InvalidValueException(
                    name, "must have at most " + Layout.ITEMS_MAX + " items, not " + given.length);
        }
        int size = Layout.requestItemSize(operation);
        byte[] body = new byte[given.length * size];
        for (int at = 0; at < given.length; at++) {
            put(operation, body, at * size, name, at, given[at]);
        }
        return body;
    }

    static String itemsName(Operation operation) {
        switch (operation) {
            case REGISTER:
                return "items";
            case CREATE_ACCOUNTS:
                return "accounts";
            case CREATE_TRANSFERS:
                return "transfers";
            default:
                return "ids";
        }
    }

    private static void put(
            Operation operation, byte[] body, int place, String name, int at, Object item) {
        if (operation == Operation.CREATE_ACCOUNTS && item instanceof Account it) {
            System.arraycopy(it.data(), 0, body, place, Layout.RECORD_SIZE);
        } else if (operation == Operation.CREATE_TRANSFERS && item instanceof Transfer it) {
            System.arraycopy(it.data(), 0, body, place, Layout.RECORD_SIZE);
        } else if (!name.equals("ids") || !putId(body, place, name + "[" + at + "]", item)) {
            String kind = item == null ? "null" : item.getClass().getSimpleName();
            throw new InvalidValueException(
                    name + "[" + at + "]", "is " + kind + ", no item of " + operation.label());
        }
    }

    /** Puts an id into a body, if the item is one. */
    private static boolean putId(byte[] body, int place, String field, Object item) {
        if (item instanceof BigInteger it) {
            Values.u128(body, place, field, it);
        } else if (item instanceof UUID it) {
            Values.id(body, place, field, UInt128.asBytes(it));
        } else if (item instanceof byte[] it) {
            Values.id(body, place, field, it);
        } else {
            return false;
        }
        return true;
    }

    /** Tests that the bytes are a request that is whole and has no fault. */
    static void testRequest(String field, byte[] frame) {
        String fault = frame == null ? "Short" : requestFault(frame);
        if (fault != null) {
            throw new InvalidValueException(field, "is no request: " + fault);
        }
    }

    private static String requestFault(byte[] frame) {
        if (frame.length < Layout.HEADER_SIZE) {
            return "Short";
        }
        Operation operation = Operation.of(frame[Layout.REQUEST_HEADER_OPERATION] & 0xff);
        if (isZero(frame, 0, Layout.REQUEST_HEADER_SESSION)) {
            return "ClientZero";
        }
        if (operation == null) {
            return "UnknownOperation";
        }
        if (!isZero(frame, Layout.REQUEST_HEADER_OPERATION + 1, Layout.REQUEST_HEADER_LENGTH)
                || !isZero(frame, Layout.REQUEST_HEADER_LENGTH + 4, Layout.HEADER_SIZE)) {
            return "Reserved";
        }
        boolean isRegister = operation == Operation.REGISTER;
        long number = number(frame);
        if (isRegister && (session(frame) != 0 || number != 0)) {
            return "RegisterNumbers";
        }
        if (!isRegister && number == 0) {
            return "RequestZero";
        }
        String fault = lengthFault(length(frame), Layout.requestItemSize(operation));
        boolean isWhole = length(frame) == frame.length - Layout.HEADER_SIZE;
        return fault == null && !isWhole ? "Short" : fault;
    }

    /** What is wrong with the length of a body of items of this size; of no items if it is 0. */
    private static String lengthFault(long length, int size) {
        if (size == 0) {
            return length == 0 ? null : "BadLength";
        }
        if (length % size != 0) {
            return "BadLength";
        }
        return length / size > Layout.ITEMS_MAX ? "TooMany" : null;
    }

    private static boolean isZero(byte[] data, int from, int to) {
        for (int at = from; at < to; at++) {
            if (data[at] != 0) {
                return false;
            }
        }
        return true;
    }

    /** The request of a frame that has no fault. */
    static Request read(byte[] frame) {
        Operation operation = operation(frame);
        List<Account> accounts = List.of();
        List<Transfer> transfers = List.of();
        List<BigInteger> ids = List.of();
        switch (operation) {
            case REGISTER:
                break;
            case CREATE_ACCOUNTS:
                accounts = items(frame, Layout.RECORD_SIZE, Account::new);
                break;
            case CREATE_TRANSFERS:
                transfers = items(frame, Layout.RECORD_SIZE, Transfer::new);
                break;
            default:
                ids = items(frame, Layout.ID_SIZE, it -> Values.u128(it, 0));
        }
        BigInteger session = Values.unsigned(session(frame));
        return new Request(
                client(frame), session, number(frame), operation, accounts, transfers, ids);
    }

    // What both headers have

    static BigInteger client(byte[] frame) {
        return Values.u128(frame, Layout.REQUEST_HEADER_CLIENT);
    }

    static long session(byte[] frame) {
        return Values.i64(frame, Layout.REQUEST_HEADER_SESSION);
    }

    static long number(byte[] frame) {
        return Values.u32(frame, Layout.REQUEST_HEADER_REQUEST);
    }

    /** The operation of a frame that has no fault. */
    static Operation operation(byte[] frame) {
        return Operation.of(frame[Layout.REQUEST_HEADER_OPERATION] & 0xff);
    }

    static long length(byte[] frame) {
        return Values.u32(frame, Layout.REQUEST_HEADER_LENGTH);
    }

    // Replies

    /** The status of a reply that has no fault. */
    static Status status(byte[] reply) {
        return Status.of(reply[Layout.REPLY_HEADER_STATUS] & 0xff);
    }

    /** What is wrong with the header of a reply, by the tests of docs/use/FORMATS.md in order. */
    static String replyFault(byte[] header) {
        Operation operation = operation(header);
        Status status = status(header);
        if (isZero(header, 0, Layout.REPLY_HEADER_SESSION)) {
            return "ClientZero";
        }
        if (operation == null) {
            return "UnknownOperation";
        }
        if (status == null
                || !isZero(header, Layout.REPLY_HEADER_STATUS + 1, Layout.REPLY_HEADER_LENGTH)
                || !isZero(header, Layout.REPLY_HEADER_COMMIT + 8, Layout.HEADER_SIZE)) {
            return "Reserved";
        }
        boolean isRegister = operation == Operation.REGISTER;
        boolean isRefusal = status != Status.REPLY;
        long session = session(header);
        long number = number(header);
        if (isRegister && (number != 0 || isRefusal && session != 0)) {
            return "RegisterNumbers";
        }
        if (!isRegister && number == 0) {
            return "RequestZero";
        }
        long commit = Values.i64(header, Layout.REPLY_HEADER_COMMIT);
        if (!areNumbers(isRegister, isRefusal, session, commit)) {
            return "ReplyNumbers";
        }
        return lengthFault(length(header), isRefusal ? 0 : Layout.replyItemSize(operation));
    }

    private static boolean areNumbers(
            boolean isRegister, boolean isRefusal, long session, long commit) {
        if (isRefusal) {
            return commit == 0;
        }
        int order = Long.compareUnsigned(session, commit);
        return session != 0 && (isRegister ? order == 0 : order < 0);
    }

    /** Tests the header of a reply, before its body is waited for. */
    static void testReply(byte[] header) {
        String fault = header.length < Layout.HEADER_SIZE ? "Short" : replyFault(header);
        if (fault != null) {
            throw new BadReplyException("what came is no reply (" + fault + ")" + text(header));
        }
    }

    /** The first line of what came, if it is text: a server that speaks something else. */
    private static String text(byte[] data) {
        String line = new String(data, StandardCharsets.ISO_8859_1).lines().findFirst().orElse("");
        boolean isText = line.length() >= 8 && line.chars().allMatch(it -> it >= ' ' && it < 127);
        return isText ? ": " + line : "";
    }

    /** Tests that a reply's header, which has no fault, is of this request. */
    static void testAsked(byte[] frame, byte[] reply) {
        boolean isOfIt = Arrays.equals(frame, 0, 16, reply, 0, 16)
                && Arrays.equals(frame, 24, 29, reply, 24, 29)
                && (frame[Layout.REQUEST_HEADER_OPERATION] == REGISTER && isReply(reply)
                        || session(frame) == session(reply));
        if (!isOfIt) {
            throw new BadReplyException("a reply to request " + number(reply) + " of session "
                    + Long.toUnsignedString(session(reply)) + ", of client " + client(reply)
                    + ", came for request " + number(frame) + " of session "
                    + Long.toUnsignedString(session(frame)));
        }
    }

    private static boolean isReply(byte[] reply) {
        return status(reply) == Status.REPLY;
    }

    /** Tests that the bytes are the reply to a request, whole. */
    static void testWhole(byte[] frame, byte[] reply) {
        if (reply == null) {
            throw new BadReplyException("null is no reply");
        }
        testReply(reply);
        if (length(reply) != reply.length - Layout.HEADER_SIZE) {
            throw new BadReplyException(reply.length + " bytes are no frame of a reply");
        }
        testAsked(frame, reply);
    }

    /** What a reply to a request says, if it is one that such a request can have. */
    static Answer said(byte[] frame, byte[] reply) {
        switch (operation(frame)) {
            case REGISTER:
                return new Answer.Registered(Values.unsigned(session(reply)));
            case CREATE_ACCOUNTS:
                return new Answer.AccountResults(results(frame, reply, CreateAccountResult::of));
            case CREATE_TRANSFERS:
                return new Answer.TransferResults(results(frame, reply, CreateTransferResult::of));
            case LOOKUP_ACCOUNTS:
                return new Answer.Accounts(found(frame, reply, Account::new));
            default:
                return new Answer.Transfers(found(frame, reply, Transfer::new));
        }
    }

    /** Results are of events that failed, in the order of the events. */
    private static <R extends ResultCode> List<EventResult<R>> results(
            byte[] frame, byte[] reply, Function<Integer, R> names) {
        long count = length(frame) / Layout.RECORD_SIZE;
        long before = -1;
        List<EventResult<R>> found = new ArrayList<>();
        for (int at = Layout.HEADER_SIZE; at < reply.length; at += Layout.RESULT_SIZE) {
            long index = Values.u32(reply, at + Layout.RESULT_INDEX);
            long code = Values.u32(reply, at + Layout.RESULT_RESULT);
            R result = code > Integer.MAX_VALUE ? null : names.apply((int) code);
            if (result == null || result.code() == 0) {
                throw new BadReplyException("event " + index + " came with result " + code);
            }
            if (index >= count || index <= before) {
                throw new BadReplyException("a result of event " + index + " came for " + count
                        + " events, behind that"
                        + " of event " + before);
            }
            found.add(new EventResult<>((int) index, result));
            before = index;
        }
        return List.copyOf(found);
    }

    /** Records are those that were looked up, in the order of the ids. */
    private static <T> List<T> found(byte[] frame, byte[] reply, Function<byte[], T> make) {
        int id = Layout.HEADER_SIZE;
        for (int at = Layout.HEADER_SIZE; at < reply.length; at += Layout.RECORD_SIZE) {
            int end = at + Layout.ID_SIZE;
            while (id < frame.length
                    && !Arrays.equals(frame, id, id + Layout.ID_SIZE, reply, at, end)) {
                id += Layout.ID_SIZE;
            }
            if (id >= frame.length) {
                throw new BadReplyException("a record with id " + Values.u128(reply, at)
                        + " came, which was not looked up there");
            }
            id += Layout.ID_SIZE;
        }
        return items(reply, Layout.RECORD_SIZE, make);
    }

    /** The items of a frame's body. */
    private static <T> List<T> items(byte[] frame, int size, Function<byte[], T> make) {
        List<T> found = new ArrayList<>((frame.length - Layout.HEADER_SIZE) / size);
        for (int at = Layout.HEADER_SIZE; at < frame.length; at += size) {
            found.add(make.apply(Arrays.copyOfRange(frame, at, at + size)));
        }
        return List.copyOf(found);
    }
}
