package org.telovamish.tbclient;

import java.math.BigInteger;
import java.util.ArrayDeque;
import java.util.ArrayList;
import java.util.List;
import java.util.concurrent.TimeUnit;
import java.util.concurrent.locks.Condition;
import java.util.concurrent.locks.ReentrantLock;
import java.util.function.Supplier;

/**
 * Sessions that callers share. What they ask for while a session waits for its reply goes out as
 * its next request, in one.
 */
final class Pool {
    private static final String NOT_SENT =
            "the client was closed, and nothing of this call was sent";

    private final Supplier<Transport> connect;
    private final Supplier<BigInteger> ids;
    private final int sessions;
    private final ReentrantLock lock = new ReentrantLock(); // of what follows
    private final Condition changed = lock.newCondition();
    private final Condition ended = lock.newCondition();
    private final ArrayDeque<Call> calls = new ArrayDeque<>();
    private final List<Worker> workers = new ArrayList<>();
    private int idle;
    private boolean isClosed;
    private ClientException trouble; // why no reply came of late

    Pool(Supplier<Transport> connect, Supplier<BigInteger> ids, int sessions) {
        this.connect = connect;
        this.ids = ids;
        this.sessions = sessions;
    }

    void ask(Call call) {
        lock.lock();
        try {
            if (isClosed) {
                throw closed();
            }
            if (idle <= calls.size() && workers.size() < sessions) {
                grow();
            }
            calls.add(call);
            changed.signal();
        } finally {
            lock.unlock();
        }
    }

    /** Makes the first transport now, and not with the first call. */
    void begin() {
        lock.lock();
        try {
            grow();
        } finally {
            lock.unlock();
        }
    }

    private void grow() {
        Worker made = new Worker(this, connect.get(), ids);
        made.start();
        workers.add(made);
    }

    static ClosedException closed() {
        return new ClosedException(NOT_SENT);
    }

    /** Takes a call off the queue whose caller waits no longer. Returns whether it may be sent. */
    boolean leave(Call call) {
        lock.lock();
        try {
            call.isLeft = true;
            calls.remove(call);
            return call.isSent;
        } finally {
            lock.unlock();
        }
    }

    /** Why no reply came of late, as a text that follows another. */
    String trouble() {
        lock.lock();
        try {
            return trouble == null ? "" : ", after: " + trouble.getMessage();
        } finally {
            lock.unlock();
        }
    }

    // What workers call

    /** Waits until there is a call. False at the end. */
    boolean await() {
        lock.lock();
        try {
            idle++;
            while (calls.isEmpty() && !isClosed) {
                changed.awaitUninterruptibly();
            }
            idle--;
            return !isClosed;
        } finally {
            lock.unlock();
        }
    }

    /**
     * The next calls that one request can hold. A list is never cut, and no call is joined to one
     * that ends in an open chain.
     */
    List<Call> take() {
        lock.lock();
        try {
            List<Call> batch = new ArrayList<>();
            int items = 0;
            Call last = null;
            while (!calls.isEmpty() && (last == null || last.mayJoin(calls.peek(), items))) {
                last = calls.poll();
                last.isSent = true; // before it is: who leaves later is told so
                items += last.count;
                batch.add(last);
            }
            return batch;
        } finally {
            lock.unlock();
        }
    }

    /** Puts calls back of which nothing was sent. */
    void giveBack(List<Call> batch) {
        lock.lock();
        try {
            for (int at = batch.size() - 1; at >= 0; at--) {
                Call it = batch.get(at);
                it.isSent = false;
                if (!it.isLeft) {
                    calls.addFirst(it);
                }
            }
        } finally {
            lock.unlock();
        }
        dropIfClosed();
    }

    private void dropIfClosed() {
        List<Call> dropped = new ArrayList<>();
        lock.lock();
        try {
            if (isClosed) {
                dropped.addAll(calls);
                calls.clear();
            }
        } finally {
            lock.unlock();
        }
        dropped.forEach(it -> it.future.completeExceptionally(closed()));
    }

    void note(ClientException why) {
        lock.lock();
        try {
            trouble = why;
        } finally {
            lock.unlock();
        }
    }

    /** Waits before a next sending. Returns whether the client goes on. */
    boolean rest(long nanoseconds, ClientException why) {
        note(why);
        lock.lock();
        try {
            long left = nanoseconds;
            while (left > 0 && !isClosed) {
                left = ended.awaitNanos(left);
            }
            return !isClosed;
        } catch (InterruptedException nobody) {
            return true; // nobody interrupts a worker
        } finally {
            lock.unlock();
        }
    }

    void close() {
        List<Worker> running;
        lock.lock();
        try {
            isClosed = true;
            changed.signalAll();
            ended.signalAll();
            running = List.copyOf(workers);
        } finally {
            lock.unlock();
        }
        dropIfClosed();
        running.forEach(Worker::end);
    }

    /** The nanoseconds before each next sending, which follows a first lost reply at once. */
    static final class Patience {
        private static final long FIRST = TimeUnit.MILLISECONDS.toNanos(50);
        private static final long LAST = TimeUnit.SECONDS.toNanos(1);

        private long pause = FIRST;
        private boolean isBegun;

        long next(ClientException why) {
            boolean isLater = why instanceof BusyException || why instanceof NotYetException;
            boolean isAtOnce = !isBegun && !isLater;
            isBegun = true;
            if (isAtOnce) {
                return 0;
            }
            long now = pause;
            pause = Math.min(2 * pause, LAST);
            return now;
        }
    }
}
