package org.telovamish.tbclient;

import java.io.IOException;
import java.nio.file.Files;
import java.nio.file.Path;
import java.time.Instant;
import java.util.concurrent.TimeUnit;
import java.util.function.LongSupplier;

/**
 * Moments of requests, in nanoseconds since 1970. They begin with the clock, or with the ledger's
 * last time if that is later. They never fall, and grow by no more than the time that goes by and
 * a thousandth of it, by a clock that nobody sets: so a clock that is set far ahead does not take
 * the ledger along.
 */
final class Moments {
    static final long SECOND = TimeUnit.SECONDS.toNanos(1);

    private final LongSupplier wall;
    private final LongSupplier running;
    private long last;
    private long at;

    Moments() {
        this(Moments::wallClock, new Running(System::nanoTime, Moments::uptime));
    }

    Moments(LongSupplier wall, LongSupplier running) {
        this.wall = wall;
        this.running = running;
        last = wall.getAsLong();
        at = running.getAsLong();
    }

    /** Nanoseconds since 1970, by the system's clock. */
    static long wallClock() {
        Instant now = Instant.now();
        return now.getEpochSecond() * SECOND + now.getNano();
    }

    /** The seconds for which the system has run, with its sleeps; 0 if it does not say. */
    private static long uptime() {
        try {
            String said = Files.readString(Path.of("/proc/uptime"));
            return Long.parseLong(said.substring(0, said.indexOf('.')));
        } catch (IOException | RuntimeException why) {
            return 0;
        }
    }

    /** The moment of the next request. */
    synchronized long next() {
        long clock = wall.getAsLong();
        if (clock > last) {
            long now = running.getAsLong();
            long gone = Math.max(now - at, 0);
            last = Math.min(clock, last + gone + gone / 1000);
            at = now;
        }
        return last;
    }

    /** Goes on at this moment, if that is later. */
    synchronized void goOn(long moment) {
        if (moment > last) {
            last = moment;
            at = running.getAsLong();
        }
    }

    /**
     * A clock that nobody sets. It counts while the computer sleeps too: once a second the time
     * that a sleep took is taken from the system's uptime, in seconds.
     */
    static final class Running implements LongSupplier {
        private final LongSupplier steady;
        private final LongSupplier uptime;
        private final long first;
        private long slept;
        private long at;

        Running(LongSupplier steady, LongSupplier uptime) {
            this.steady = steady;
            this.uptime = uptime;
            first = asleep();
            at = steady.getAsLong();
        }

        private long asleep() {
            return uptime.getAsLong() * SECOND - steady.getAsLong();
        }

        @Override
        public long getAsLong() {
            long now = steady.getAsLong();
            if (now - at >= SECOND) {
                at = now;
                long more = asleep() - first;
                if (more > slept + 2 * SECOND) {
                    slept = more - SECOND; // an uptime has whole seconds
                }
            }
            return now + slept;
        }
    }
}
