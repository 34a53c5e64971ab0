package org.telovamish.tbclient;

import java.io.IOException;
import java.io.InterruptedIOException;
import java.net.InetAddress;
import java.net.SocketTimeoutException;
import java.util.HashMap;
import java.util.Map;
import java.util.concurrent.ExecutionException;
import java.util.concurrent.Future;
import java.util.concurrent.FutureTask;
import java.util.concurrent.TimeUnit;
import java.util.concurrent.TimeoutException;
import java.util.regex.Pattern;

/**
 * Looks hosts' names up, and waits no longer than it may: Java's own lookup has no limit. One that
 * takes longer goes on in a daemon thread. Who asks for its name meanwhile waits for it too, so
 * that there is one thread for a name at most.
 */
final class Lookup {
    static final Lookup SYSTEM = new Lookup(InetAddress::getAllByName);

    private static final String BYTE = "(25[0-5]|2[0-4]\\d|1\\d\\d|[1-9]?\\d)";
    // of IPv4, or what has a colon, in which Java sees a number of IPv6 or no number at all
    private static final Pattern NUMBER =
            Pattern.compile("(" + BYTE + "\\.){3}" + BYTE + "|[\\da-fA-F:].*:.*");

    /** Finds the addresses of a name, however long that takes. */
    @FunctionalInterface
    interface Resolver {
        InetAddress[] resolve(String host) throws IOException;
    }

    private final Resolver resolver;
    private final Map<String, Future<InetAddress[]>> begun = new HashMap<>();

    Lookup(Resolver resolver) {
        this.resolver = resolver;
    }

    /** The addresses of a host, found by the deadline. A number of one is read at once. */
    InetAddress[] addresses(String host, Deadline until) throws IOException {
        if (NUMBER.matcher(host).matches()) {
            return resolver.resolve(host);
        }
        try {
            return begunOf(host).get(Math.max(until.left(), 0), TimeUnit.NANOSECONDS);
        } catch (TimeoutException late) {
            throw new SocketTimeoutException("the host's name was not looked up in time");
        } catch (InterruptedException why) {
            throw new InterruptedIOException("the thread was interrupted");
        } catch (ExecutionException why) {
            if (why.getCause() instanceof IOException fault) {
                throw fault;
            }
            throw new IOException("the host's name cannot be looked up", why.getCause());
        }
    }

    private synchronized Future<InetAddress[]> begunOf(String host) {
        return begun.computeIfAbsent(host, this::begin);
    }

    private Future<InetAddress[]> begin(String host) {
        FutureTask<InetAddress[]> task = new FutureTask<>(() -> {
            try {
                return resolver.resolve(host);
            } finally {
                end(host);
            }
        });
        Thread thread = new Thread(task, "tbclient lookup of " + host);
        thread.setDaemon(true);
        thread.start();
        return task;
    }

    private synchronized void end(String host) {
        begun.remove(host);
    }
}
