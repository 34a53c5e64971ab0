package org.telovamish.tbclient;

import java.time.Duration;
import javax.net.ssl.SSLContext;

/**
 * How a {@link Client} works.
 *
 * @param sessions how many requests may be in flight, each in a session of its own, 1 to 64: with 1
 *     requests are executed in the order of the calls
 * @param timeout the time for one sending. A call goes on until its caller's own limit
 * @param tls how TLS is spoken with a host and a port, or null for no TLS
 * @param clientRange the upper 64 bits of the ids of the client's sessions, or null for random ones
 */
public record ClientOptions(int sessions, Duration timeout, SSLContext tls, Long clientRange) {
    /** One session, {@link SocketTransport#TIMEOUT}, no TLS, random ids. */
    public static final ClientOptions DEFAULT =
            new ClientOptions(1, SocketTransport.TIMEOUT, null, null);

    /**
     * Tests the options.
     *
     * @param sessions how many requests may be in flight, 1 to 64
     * @param timeout the time for one sending, a millisecond or more
     * @param tls how TLS is spoken, or null for no TLS
     * @param clientRange the upper 64 bits of the ids of the client's sessions, or null
     * @throws InvalidValueException if one is out of its range
     */
    public ClientOptions {
        Values.within("sessions", sessions, 1, Layout.CLIENTS_MAX);
        Values.time("timeout", timeout, Duration.ofMillis(1));
    }

    /**
     * These options with other sessions.
     *
     * @param many how many requests may be in flight
     * @return the options
     */
    public ClientOptions withSessions(int many) {
        return new ClientOptions(many, timeout, tls, clientRange);
    }

    /**
     * These options with another timeout.
     *
     * @param time the time for one sending
     * @return the options
     */
    public ClientOptions withTimeout(Duration time) {
        return new ClientOptions(sessions, time, tls, clientRange);
    }

    /**
     * These options over TLS.
     *
     * @param context how TLS is spoken
     * @return the options
     */
    public ClientOptions withTls(SSLContext context) {
        return new ClientOptions(sessions, timeout, context, clientRange);
    }

    /**
     * These options for a listener that gives each peer a range of ids.
     *
     * @param upper the upper 64 bits of the ids
     * @return the options
     */
    public ClientOptions withClientRange(long upper) {
        return new ClientOptions(sessions, timeout, tls, upper);
    }
}
