package org.telovamish.tbclient;

import java.nio.file.Path;
import java.time.Duration;
import java.util.function.Consumer;

/**
 * How {@link Client#open} works.
 *
 * @param program the path of {@code tbd}, or null: then it is that of the variable TBD, on PATH, in
 *     the folder of this client's jar, or in that of Java
 * @param existing whether a file that is not there is a fault: otherwise it is made
 * @param clientsMax how many clients the file has places for, as it is made, and was, 1 to 64
 * @param profile the profile with which the file is made, and was, 1 or 2
 * @param lockTimeout how long a locked file is waited for: the child of a program that was killed
 *     ends a moment after it
 * @param aheadMax how far the ledger's last time may be ahead of this computer's clock, or null for
 *     any time
 * @param report gets the lines on what a start did to the file, in another thread
 * @param progress gets how much was read of a large file, in another thread
 * @param dropTorn whether a start cuts off torn bytes without a copy. A file has 16 copies at most
 */
public record OpenOptions(Path program, boolean existing, int clientsMax, int profile,
        Duration lockTimeout, Duration aheadMax, Consumer<String> report, Progress progress,
        boolean dropTorn) {
    /** Gets how much was read of a file. */
    @FunctionalInterface
    public interface Progress {
        /**
         * Takes a number.
         *
         * @param done the MB that were read
         * @param size the file's MB
         */
        void read(int done, int size);
    }

    /**
     * Makes the file if it is not there, for 64 clients in profile 1. Waits for a lock for 5
     * seconds, and allows a minute ahead. Lines go to standard error.
     */
    public static final OpenOptions DEFAULT =
            new OpenOptions(null, false, Layout.CLIENTS_MAX, 1, Duration.ofSeconds(5),
                    Duration.ofMinutes(1), System.err::println, (done, size) -> {}, false);

    /**
     * Tests the options.
     *
     * @param program the path of {@code tbd}, or null
     * @param existing whether a file that is not there is a fault
     * @param clientsMax how many clients the file has places for, 1 to 64
     * @param profile the profile, 1 or 2
     * @param lockTimeout how long a locked file is waited for
     * @param aheadMax how far the ledger's last time may be ahead of this computer's clock, or null
     * @param report gets the lines on what a start did to the file
     * @param progress gets how much was read of a large file
     * @param dropTorn whether torn bytes are cut off without a copy
     * @throws InvalidValueException if one is out of its range
     */
    public OpenOptions {
        Values.within("clientsMax", clientsMax, 1, Layout.CLIENTS_MAX);
        Values.within("profile", profile, 1, 2);
        Values.time("lockTimeout", lockTimeout, Duration.ZERO);
        if (aheadMax != null) {
            Values.time("aheadMax", aheadMax, Duration.ZERO);
        }
        Values.given("report", report);
        Values.given("progress", progress);
    }

    /**
     * These options with another program.
     *
     * @param path the path of {@code tbd}
     * @return the options
     */
    public OpenOptions withProgram(Path path) {
        return new OpenOptions(Values.given("program", path), existing, clientsMax, profile,
                lockTimeout, aheadMax, report, progress, dropTorn);
    }

    /**
     * These options for a file that is there: none is made.
     *
     * @return the options
     */
    public OpenOptions withExisting() {
        return new OpenOptions(program, true, clientsMax, profile, lockTimeout, aheadMax, report,
                progress, dropTorn);
    }

    /**
     * These options for a file of other rules.
     *
     * @param clients how many clients the file has places for
     * @param number the profile
     * @return the options
     */
    public OpenOptions withRules(int clients, int number) {
        return new OpenOptions(program, existing, clients, number, lockTimeout, aheadMax, report,
                progress, dropTorn);
    }

    /**
     * These options with another time for a locked file.
     *
     * @param time how long it is waited for
     * @return the options
     */
    public OpenOptions withLockTimeout(Duration time) {
        return new OpenOptions(
                program, existing, clientsMax, profile, time, aheadMax, report, progress, dropTorn);
    }

    /**
     * These options for a ledger whose last time may be ahead of this computer's clock.
     *
     * @param time how far, or null for any time
     * @return the options
     */
    public OpenOptions withAheadMax(Duration time) {
        return new OpenOptions(program, existing, clientsMax, profile, lockTimeout, time, report,
                progress, dropTorn);
    }

    /**
     * These options with a place for the lines on what a start did to the file.
     *
     * @param to gets the lines
     * @return the options
     */
    public OpenOptions withReport(Consumer<String> to) {
        return new OpenOptions(program, existing, clientsMax, profile, lockTimeout, aheadMax, to,
                progress, dropTorn);
    }

    /**
     * These options with a place for how much was read.
     *
     * @param to gets the numbers
     * @return the options
     */
    public OpenOptions withProgress(Progress to) {
        return new OpenOptions(program, existing, clientsMax, profile, lockTimeout, aheadMax,
                report, to, dropTorn);
    }

    /**
     * These options with torn bytes cut off without a copy.
     *
     * @return the options
     */
    public OpenOptions withDropTorn() {
        return new OpenOptions(program, existing, clientsMax, profile, lockTimeout, aheadMax,
                report, progress, true);
    }
}
