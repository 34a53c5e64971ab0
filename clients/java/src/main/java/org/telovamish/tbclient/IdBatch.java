package org.telovamish.tbclient;

import java.math.BigInteger;
import java.util.UUID;

/** Ids of a lookup. */
public final class IdBatch extends Batch {
    /**
     * A batch with room.
     *
     * @param capacity how many ids it is made for; it grows
     */
    public IdBatch(int capacity) {
        super(Layout.ID_SIZE, capacity);
    }

    /**
     * Adds an id, and is at it.
     *
     * @param id 16 bytes, the low one first
     */
    public void add(byte[] id) {
        append(Values.wide("id", id));
    }

    /**
     * Adds an id, and is at it.
     *
     * @param id 0 to 2^128 - 1
     */
    public void add(BigInteger id) {
        append(UInt128.asBytes(id));
    }

    /**
     * Adds an id, and is at it.
     *
     * @param id 0 to 2^63 - 1
     */
    public void add(long id) {
        append(UInt128.asBytes(id));
    }

    /**
     * Adds an id, and is at it.
     *
     * @param id the id
     */
    public void add(UUID id) {
        append(UInt128.asBytes(id));
    }

    /**
     * The id that this is at.
     *
     * @return its 16 bytes
     */
    public byte[] getId() {
        return item();
    }
}
