package org.telovamish.tbclient;

import java.io.InterruptedIOException;
import java.net.SocketTimeoutException;
import java.time.Duration;
import java.util.concurrent.TimeUnit;
import java.util.concurrent.locks.Lock;

/** A moment by which something has to be done, on a clock that nobody sets. */
final class Deadline {
    private static final long NEVER = Long.MAX_VALUE;
    private static final Duration LONGEST = Duration.ofDays(36500);

    private final boolean is;
    private final long at;

    private Deadline(boolean is, long at) {
        this.is = is;
        this.at = at;
    }

    /** This long from now, or never if that is null. */
    static Deadline in(Duration time) {
        if (time == null) {
            return new Deadline(false, 0);
        }
        Duration least = time.isNegative() ? Duration.ZERO : time;
        Duration most = least.compareTo(LONGEST) < 0 ? least : LONGEST;
        return new Deadline(true, System.nanoTime() + most.toNanos());
    }

    /** So many nanoseconds from now, but not beyond this one. */
    Deadline sooner(long nanoseconds) {
        return left() <= nanoseconds ? this : new Deadline(true, System.nanoTime() + nanoseconds);
    }

    /** The nanoseconds that are left: 0 or less if it went by. */
    long left() {
        return is ? at - System.nanoTime() : NEVER;
    }

    boolean isOver() {
        return left() <= 0;
    }

    /** Throws if the thread was interrupted, or this went by. */
    void test() throws InterruptedIOException {
        if (Thread.currentThread().isInterrupted()) {
            throw new InterruptedIOException("the thread was interrupted");
        }
        if (isOver()) {
            throw new SocketTimeoutException("the time went by");
        }
    }

    /** What is left as a time, or null if it has no end. */
    Duration time() {
        return is ? Duration.ofNanos(Math.max(left(), 0)) : null;
    }

    /** Takes a lock before this. If that fails, nothing was sent, and the call is cancelled. */
    void take(Lock lock) {
        try {
            if (!isOver() && lock.tryLock(left(), TimeUnit.NANOSECONDS)) {
                return;
            }
        } catch (InterruptedException why) {
            throw interrupted(false);
        }
        throw late(false);
    }

    /** Waits this long, or until this. Returns whether there is time left. */
    boolean sleep(long nanoseconds) throws InterruptedException {
        long left = left();
        TimeUnit.NANOSECONDS.sleep(Math.min(nanoseconds, left));
        return nanoseconds < left;
    }

    static CancelledException late(boolean sent) {
        return new CancelledException("the limit of the call went by", sent);
    }

    /** Keeps the interrupt for the caller, who may ask for it. */
    static CancelledException interrupted(boolean sent) {
        Thread.currentThread().interrupt();
        return new CancelledException("the thread was interrupted", sent);
    }
}
