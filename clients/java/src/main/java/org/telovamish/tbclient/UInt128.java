package org.telovamish.tbclient;

import java.math.BigInteger;
import java.util.UUID;

/** Numbers of 128 bits as 16 bytes, the low one first, as batches have them. */
public final class UInt128 {
    /** How many bytes it has. */
    public static final int SIZE = 16;

    private UInt128() {}

    /**
     * A number's bytes.
     *
     * @param value 0 to 2^128 - 1
     * @return 16 bytes
     */
    public static byte[] asBytes(BigInteger value) {
        byte[] data = new byte[SIZE];
        Values.u128(data, 0, "UInt128", value);
        return data;
    }

    /**
     * A number's bytes.
     *
     * @param value 0 to 2^63 - 1
     * @return 16 bytes
     */
    public static byte[] asBytes(long value) {
        byte[] data = new byte[SIZE];
        Values.u128(data, 0, "UInt128", value);
        return data;
    }

    /**
     * A UUID's number as bytes.
     *
     * @param value the UUID
     * @return 16 bytes
     */
    public static byte[] asBytes(UUID value) {
        byte[] data = new byte[SIZE];
        UUID given = Values.given("UUID", value);
        Values.bits(data, 0, given.getLeastSignificantBits(), given.getMostSignificantBits());
        return data;
    }

    /**
     * The UUID of a number.
     *
     * @param bytes its 16 bytes
     * @return the UUID
     */
    public static UUID asUUID(byte[] bytes) {
        byte[] data = Values.wide("UInt128", bytes);
        return new UUID(Values.i64(data, 8), Values.i64(data, 0));
    }

    /**
     * The UUID of a number.
     *
     * @param value 0 to 2^128 - 1, as a record's id
     * @return the UUID
     */
    public static UUID asUUID(BigInteger value) {
        return asUUID(asBytes(value));
    }

    /**
     * The number of some bytes.
     *
     * @param bytes its 16 bytes
     * @return 0 to 2^128 - 1
     */
    public static BigInteger asBigInteger(byte[] bytes) {
        return Values.u128(Values.wide("UInt128", bytes), 0);
    }

    /**
     * A new id, as {@link Ids#id} makes it.
     *
     * @return its 16 bytes
     */
    public static byte[] id() {
        return Ids.idBytes();
    }
}
