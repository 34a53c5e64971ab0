package org.telovamish.tbclient;

import java.time.Duration;

/**
 * How a session sends.
 *
 * @param attempts how often a request is sent in one call, at most: 1 to 2^31 - 1
 * @param pause how long to wait before a request is sent again if the server said to come later.
 *     Each further pause is twice as long, up to a second, or to this if it is longer
 */
public record SessionOptions(int attempts, Duration pause) {
    /** 5 attempts, and a pause of 50 ms. */
    public static final SessionOptions DEFAULT = new SessionOptions(5, Duration.ofMillis(50));

    /**
     * Tests both.
     *
     * @param attempts how often a request is sent in one call, at most
     * @param pause how long to wait before it is sent again if the server said to come later
     * @throws InvalidValueException if one is out of its range
     */
    public SessionOptions {
        Values.within("attempts", attempts, 1, Integer.MAX_VALUE);
        Values.time("pause", pause, Duration.ZERO);
    }

    /**
     * The same with other attempts.
     *
     * @param attempts how often a request is sent in one call
     * @return the options
     */
    public SessionOptions withAttempts(int attempts) {
        return new SessionOptions(attempts, pause);
    }

    /**
     * The same with another pause.
     *
     * @param pause the first pause
     * @return the options
     */
    public SessionOptions withPause(Duration pause) {
        return new SessionOptions(attempts, pause);
    }
}
