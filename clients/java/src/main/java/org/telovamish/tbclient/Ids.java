package org.telovamish.tbclient;

import java.math.BigInteger;
import java.security.SecureRandom;
import java.util.function.LongSupplier;
import java.util.function.Supplier;

/**
 * Makes ids for accounts, transfers and clients, as TigerBeetle's clients make them: 48 bits of
 * milliseconds since 1970, and 80 random ones. They rise, also if the clock is set back.
 */
public final class Ids {
    private static final int RANDOM_BYTES = 10;
    private static final int HIGH_BITS = 8 * RANDOM_BYTES - Long.SIZE;
    private static final SecureRandom RANDOM = new SecureRandom();
    private static final Ids IDS = new Ids(System::currentTimeMillis, Ids::draw);

    private final LongSupplier clock;
    private final Supplier<byte[]> random;
    private long most; // 48 bits of milliseconds, and 16 random ones
    private long least; // 64 random bits

    /** A generator of its own: milliseconds, and ten random bytes a call, the low one first. */
    Ids(LongSupplier clock, Supplier<byte[]> random) {
        this.clock = clock;
        this.random = random;
    }

    /**
     * A new id of 128 bits. It is above each earlier one of this process, in any thread, and
     * neither 0 nor 2^128 - 1. Keep it with its request: a retry never takes a new one.
     *
     * @return the id
     */
    public static BigInteger id() {
        return IDS.next();
    }

    /** The same as its 16 bytes, the low one first. */
    static byte[] idBytes() {
        return IDS.nextBytes();
    }

    BigInteger next() {
        return Values.u128(nextBytes(), 0);
    }

    synchronized byte[] nextBytes() {
        long now = clock.getAsLong();
        if (now > most >>> HIGH_BITS) {
            byte[] drawn = random.get();
            least = Values.i64(drawn, 0);
            most = now << HIGH_BITS | Values.u16(drawn, Long.BYTES);
        } else if (++least == 0) { // the ids rise, at last into the next millisecond
            most++;
        }
        byte[] id = new byte[Layout.ID_SIZE];
        Values.bits(id, 0, least, most);
        return id;
    }

    private static byte[] draw() {
        byte[] drawn = new byte[RANDOM_BYTES];
        RANDOM.nextBytes(drawn);
        return drawn;
    }
}
