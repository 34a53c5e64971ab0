package org.telovamish.tbclient;

import java.lang.invoke.MethodHandles;
import java.lang.invoke.VarHandle;
import java.math.BigInteger;
import java.nio.ByteOrder;
import java.time.Duration;
import java.util.Arrays;

/** The tests of what fields and arguments hold, and their bytes. Each fault names the field. */
final class Values {
    static final long U32 = 0xffff_ffffL;
    static final int U16 = 0xffff;
    static final Duration SECONDS_MAX = Duration.ofSeconds(U32);

    private static final VarHandle LONG =
            MethodHandles.byteArrayViewVarHandle(long[].class, ByteOrder.LITTLE_ENDIAN);
    private static final VarHandle INT =
            MethodHandles.byteArrayViewVarHandle(int[].class, ByteOrder.LITTLE_ENDIAN);
    private static final VarHandle SHORT =
            MethodHandles.byteArrayViewVarHandle(short[].class, ByteOrder.LITTLE_ENDIAN);

    private Values() {}

    // Numbers in bytes

    static long i64(byte[] data, int at) {
        return (long) LONG.get(data, at);
    }

    static BigInteger u128(byte[] data, int at) {
        long low = i64(data, at);
        long high = i64(data, at + 8);
        return high == 0 ? unsigned(low) : unsigned(high).shiftLeft(64).or(unsigned(low));
    }

    static BigInteger u64(byte[] data, int at) {
        return unsigned(i64(data, at));
    }

    static long u32(byte[] data, int at) {
        return (int) INT.get(data, at) & U32;
    }

    static int i32(byte[] data, int at) {
        return (int) INT.get(data, at);
    }

    static byte[] id(byte[] data, int at) {
        return Arrays.copyOfRange(data, at, at + Layout.ID_SIZE);
    }

    static int u16(byte[] data, int at) {
        return (short) SHORT.get(data, at) & U16;
    }

    static BigInteger unsigned(long value) {
        BigInteger low = BigInteger.valueOf(value & Long.MAX_VALUE);
        return value < 0 ? low.setBit(63) : low;
    }

    static void putLong(byte[] data, int at, long value) {
        LONG.set(data, at, value);
    }

    static void putInt(byte[] data, int at, long value) {
        INT.set(data, at, (int) value);
    }

    static void putWide(byte[] data, int at, BigInteger value) {
        putLong(data, at, value.longValue());
        putLong(data, at + 8, value.bitLength() <= 64 ? 0 : value.shiftRight(64).longValue());
    }

    static void bits(byte[] data, int at, long least, long most) {
        putLong(data, at, least);
        putLong(data, at + 8, most);
    }

    // Tested, and put into bytes

    static void id(byte[] data, int at, String field, byte[] value) {
        System.arraycopy(wide(field, value), 0, data, at, Layout.ID_SIZE);
    }

    static byte[] wide(String field, byte[] value) {
        if (value == null || value.length != Layout.ID_SIZE) {
            String given = value == null ? "null" : String.valueOf(value.length);
            throw new InvalidValueException(field, "takes 16 bytes, not " + given);
        }
        return value;
    }

    static void u128(byte[] data, int at, String field, BigInteger value) {
        putWide(data, at, whole(field, value, 128));
    }

    static void u128(byte[] data, int at, String field, long value) {
        putLong(data, at, within(field, value, 0, Long.MAX_VALUE));
        putLong(data, at + 8, 0);
    }

    static void u64(byte[] data, int at, String field, BigInteger value) {
        putLong(data, at, whole(field, value, 64).longValue());
    }

    static void u64(byte[] data, int at, String field, long value) {
        putLong(data, at, within(field, value, 0, Long.MAX_VALUE));
    }

    static void u32(byte[] data, int at, String field, long value) {
        putInt(data, at, within(field, value, 0, U32));
    }

    static void u16(byte[] data, int at, String field, int value) {
        SHORT.set(data, at, (short) within(field, value, 0, U16));
    }

    static byte[] record(String name, byte[] data) {
        if (data == null || data.length != Layout.RECORD_SIZE) {
            String given = data == null ? "null" : String.valueOf(data.length);
            throw new InvalidValueException(
                    name, "takes " + Layout.RECORD_SIZE + " bytes, not " + given);
        }
        return data.clone();
    }

    // Tests

    /** A number that is not negative, of at most this many bits. */
    static BigInteger whole(String field, BigInteger value, int bits) {
        if (value == null) {
            throw new InvalidValueException(field, "must be a number, not null");
        }
        if (value.signum() < 0 || value.bitLength() > bits) {
            throw new InvalidValueException(
                    field, "must be 0 to 2^" + bits + " - 1, not " + shown(value));
        }
        return value;
    }

    static long within(String field, long value, long least, long greatest) {
        if (value < least || value > greatest) {
            throw new InvalidValueException(
                    field, "must be " + least + " to " + greatest + ", not " + value);
        }
        return value;
    }

    static BigInteger client(String field, BigInteger value) {
        if (whole(field, value, 128).signum() == 0) {
            throw new InvalidValueException(field, "must be 1 to 2^128 - 1, not 0");
        }
        return value;
    }

    static Duration time(String field, Duration value, Duration least) {
        if (value == null) {
            throw new InvalidValueException(field, "must be a time, not null");
        }
        if (value.compareTo(least) < 0 || value.compareTo(SECONDS_MAX) > 0) {
            throw new InvalidValueException(
                    field, "must be " + least + " to " + SECONDS_MAX + ", not " + value);
        }
        return value;
    }

    static <T> T given(String field, T value) {
        if (value == null) {
            throw new InvalidValueException(field, "is null");
        }
        return value;
    }

    private static String shown(BigInteger value) {
        int bits = value.bitLength();
        return bits > 128 ? "a number of " + bits + " bits" : value.toString();
    }
}
