package org.telovamish.tbclient;

import java.io.IOException;
import java.nio.ByteBuffer;

/**
 * A connection. A {@link java.net.SocketTimeoutException} says that a deadline went by, another
 * {@link java.io.InterruptedIOException} that the thread was interrupted.
 */
interface Link {
    /**
     * Whether the server closed it, or said something while it was not asked. So it is if that
     * is not known by the deadline.
     */
    boolean isLeft(Deadline until);

    /** Writes all of it. */
    void write(ByteBuffer data, Deadline until) throws IOException;

    /** Reads at least a byte, or returns false if the server closed it. */
    boolean read(ByteBuffer into, Deadline until) throws IOException;

    /** Closes it, whatever comes of that. */
    void close();
}
