package org.telovamish.tbclient;

import java.time.Duration;

/**
 * Carries frames: one exchange is one sending of a request and its reply.
 *
 * <p>A session sends the same bytes again after a {@link ReplyLostException}. What else an exchange
 * throws goes to the caller, and the request is in doubt unless it says that nothing was sent.
 */
@FunctionalInterface
public interface Transport extends AutoCloseable {
    /**
     * Sends a request, and waits for its reply.
     *
     * @param frame the request's bytes, which are not to be changed
     * @param within the caller's limit, or null for only the transport's own
     * @return the bytes of a reply
     * @throws ReplyLostException if no reply came
     * @throws BadReplyException if what came is no reply to this request
     * @throws CancelledException if the limit went by
     * @throws NotSentException if nothing was sent
     */
    byte[] exchange(byte[] frame, Duration within);

    /** Closes it, if there is something to close. */
    @Override
    default void close() {}
}
