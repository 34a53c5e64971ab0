package org.telovamish.tbclient;

import java.util.Arrays;

/** Items of a request or a reply in one array of bytes. One at a time is read and set. */
public abstract class Batch {
    private final int size;
    private byte[] data;
    private int count;
    private int at = -1; // the item that is read and set

    Batch(int size, int capacity) {
        this.size = size;
        int items = (int) Values.within("capacity", capacity, 0, Layout.ITEMS_MAX);
        data = new byte[items * size];
    }

    /** Adds an item of zeros, and is at it. */
    public void add() {
        if ((count + 1) * size > data.length) {
            data = Arrays.copyOf(data, Math.max(2 * data.length, 8 * size));
        }
        at = count;
        count++;
    }

    /** Adds an item of these bytes. */
    final void append(byte[] item) {
        add();
        System.arraycopy(item, 0, data, at * size, size);
    }

    /**
     * Moves to the next item.
     *
     * @return whether there is one
     */
    public final boolean next() {
        at = Math.min(at + 1, count);
        return at < count;
    }

    /** Moves to before the first item. */
    public final void beforeFirst() {
        at = -1;
    }

    /**
     * How many items there are.
     *
     * @return their number
     */
    public final int getLength() {
        return count;
    }

    /** The offset of the item that this is at. */
    final int place() {
        if (at < 0 || at >= count) {
            throw new IllegalStateException("the batch is at no item: call next or add");
        }
        return at * size;
    }

    final byte[] data() {
        return data;
    }

    final byte[] item() {
        return Arrays.copyOfRange(data, place(), place() + size);
    }

    /** All items, as a request has them. */
    final byte[] body(String name) {
        if (count > Layout.ITEMS_MAX) {
            throw new InvalidValueException(
                    name, "must have at most " + Layout.ITEMS_MAX + " items, not " + count);
        }
        return Arrays.copyOf(data, count * size);
    }
}
