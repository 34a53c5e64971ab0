package org.telovamish.tbclient;

import java.io.IOException;
import java.nio.file.Files;
import java.nio.file.Path;
import java.security.CodeSource;
import java.time.Duration;
import java.util.ArrayList;
import java.util.List;
import java.util.concurrent.ExecutionException;
import java.util.concurrent.TimeUnit;
import java.util.concurrent.locks.ReentrantLock;
import java.util.regex.Matcher;
import java.util.regex.Pattern;

/**
 * A transport over {@code tbd}, which serves a file as a child of this process, and is started
 * again if it was killed.
 */
final class LedgerFile implements Transport {
    private static final String NAME = "tbd";
    private static final String MISSING = NAME
            + " was not found: install the package telovamish, or give its path by withProgram or "
            + "in the variable TBD";
    private static final int STARTS = 5; // of a child that is killed before it serves
    private static final long PAUSE = 50; // ms before a locked file is opened again
    private static final long PATIENCE = 5000; // ms that a child may take to end
    private static final int SIGNAL = 128; // added to the number of a signal, in an exit status
    private static final String MEMORY = "NoMemory";
    private static final Pattern READING = Pattern.compile("tbd: reading .*, (\\d+) of (\\d+) MB");

    private final Path path;
    private final OpenOptions options;
    private final List<String> words = new ArrayList<>();
    private final Moments moments = new Moments();
    private final ReentrantLock lock = new ReentrantLock(); // of an exchange
    private int size; // MB of a file that is being read, of one thread
    private final Object state = new Object(); // guards what follows
    private Child child;
    private boolean isServed; // the file is there: a restart never makes another one
    private boolean isEnding;
    private long lastTime;

    LedgerFile(Path file, OpenOptions options) {
        this.options = Values.given("options", options);
        if (Values.given("file", file).toString().isEmpty()) {
            throw new InvalidValueException("file", "is no path: it is empty");
        }
        path = file.toAbsolutePath();
        words.addAll(List.of(program(options.program()), "run", path.toString(),
                String.valueOf(options.clientsMax()), String.valueOf(options.profile()),
                "--progress"));
        if (options.dropTorn()) {
            words.add("--drop-torn");
        }
    }

    /** The path of {@code tbd}. */
    private static String program(Path option) {
        String variable = System.getenv("TBD");
        boolean isGiven = option != null || variable != null && !variable.isEmpty();
        String name = option != null ? option.toString() : isGiven ? variable : NAME;
        List<Path> folders = new ArrayList<>();
        if (name.contains("/")) {
            folders.add(Path.of(""));
        } else {
            for (String it : System.getenv().getOrDefault("PATH", "").split(":")) {
                folders.add(Path.of(it));
            }
        }
        if (!isGiven) {
            folders.addAll(near());
        }
        for (Path folder : folders) {
            Path found = folder.resolve(name).toAbsolutePath();
            if (Files.isExecutable(found) && !Files.isDirectory(found)) {
                return found.toString();
            }
        }
        throw new CannotStartException(
                isGiven ? name + " is no program that can be run; " + MISSING : MISSING, null);
    }

    /** The folders of this client's jar and of Java. */
    private static List<Path> near() {
        List<Path> found = new ArrayList<>();
        try {
            CodeSource source = LedgerFile.class.getProtectionDomain().getCodeSource();
            Path place = Path.of(source.getLocation().toURI());
            found.add(Files.isDirectory(place) ? place : place.getParent());
        } catch (java.net.URISyntaxException | RuntimeException why) {
            // it has no place in the file system
        }
        found.add(Path.of(System.getProperty("java.home"), "bin"));
        return found;
    }

    /** Waits until the file was read. */
    void open() {
        for (int left = STARTS - 1;; left--) {
            try {
                serving(false);
                testTime();
                return;
            } catch (ReplyLostException why) {
                if (left == 0) {
                    throw new CannotStartException(
                            why.getMessage() + ", each of " + STARTS + " times", why);
                }
            }
        }
    }

    /** Refuses a ledger whose time is far ahead: what is pending would expire at once. */
    private void testTime() {
        long time;
        synchronized (state) {
            time = lastTime;
        }
        Duration ahead = Duration.ofNanos(time - Moments.wallClock());
        if (options.aheadMax() != null && ahead.compareTo(options.aheadMax()) > 0) {
            throw new ClockJumpedException("the ledger's last time is " + ahead
                    + " ahead of this computer's clock, and aheadMax is " + options.aheadMax()
                    + ": set the clock right, or give withAheadMax");
        }
    }

    @Override
    public byte[] exchange(byte[] frame, Duration within) {
        Frames.testRequest("frame", frame);
        Deadline.in(within).take(lock);
        try {
            Child it = serving(true);
            try {
                return it.exchange(moments.next(), frame);
            } catch (IOException why) {
                throw lost(it, true);
            } catch (BadReplyException why) {
                it.kill();
                lost(it, true);
                throw why;
            }
        } finally {
            lock.unlock();
        }
    }

    /**
     * The child that serves, which is started if there is none. One that finds the file locked is
     * started again for some time: the child of a program that was killed ends a moment after it.
     */
    private Child serving(boolean isAsked) {
        Deadline deadline = Deadline.in(options.lockTimeout());
        while (true) {
            Child it = started();
            try {
                if (it.ready.get()) {
                    return it;
                }
                ClientException why = lost(it, isAsked);
                if (!(why instanceof LockedException) || deadline.isOver()) {
                    throw isEnding() ? closed() : why;
                }
                TimeUnit.MILLISECONDS.sleep(PAUSE);
            } catch (InterruptedException why) {
                throw Deadline.interrupted(false);
            } catch (ExecutionException why) {
                throw new IllegalStateException(why);
            }
        }
    }

    private static ClosedException closed() {
        return new ClosedException("the ledger was closed");
    }

    private boolean isEnding() {
        synchronized (state) {
            return isEnding;
        }
    }

    private Child started() {
        synchronized (state) {
            if (isEnding) {
                throw closed();
            }
            if (child == null) {
                List<String> command = new ArrayList<>(words);
                if (isServed || options.existing()) {
                    command.add("--existing");
                }
                try {
                    child = new Child(command, this::hear);
                } catch (IOException why) {
                    throw new CannotStartException(
                            words.get(0) + " does not start: " + why.getMessage(), why);
                }
            }
            return child;
        }
    }

    /** Takes a line of the child. */
    private void hear(String line) {
        Matcher read = READING.matcher(line);
        if (read.matches()) {
            advance(Integer.parseInt(read.group(1)), Integer.parseInt(read.group(2)));
            return;
        }
        advance(size, size);
        Matcher ready = Child.READY.matcher(line);
        if (!ready.matches()) {
            options.report().accept(line);
            return;
        }
        long last = Long.parseLong(ready.group(1));
        moments.goOn(last);
        synchronized (state) {
            lastTime = last;
            isServed = true;
        }
    }

    /** Reports how much was read. That all was is reported once, if anything was. */
    private void advance(int done, int all) {
        boolean isAmid = done < all;
        if (isAmid || size > 0) {
            options.progress().read(done, all);
        }
        size = isAmid ? all : 0;
    }

    /** Drops a child that ended, and returns why it did. */
    private ClientException lost(Child it, boolean isAsked) {
        int status = it.ended.join();
        synchronized (state) {
            if (child == it) {
                child = null;
            }
        }
        if (status > SIGNAL) {
            return new ReplyLostException(
                    "the program was killed by signal " + (status - SIGNAL), "", null);
        }
        if (status >= Child.NOT_RUN) {
            throw new CannotStartException(words.get(0) + " does not start: " + it.fault(), null);
        }
        if (it.fault().equals(MEMORY)) {
            return new ReplyLostException("the program had no memory, and ended", MEMORY, null);
        }
        if (it.fault().startsWith("Locked")) {
            return new LockedException(it.fault(), status, isAsked, Owner.of(path));
        }
        return new ProgramEndedException(it.fault(), status, isAsked);
    }

    /**
     * Starts no child from now on. One that reads its file, and was sent nothing, is killed.
     *
     * @return the child, or null
     */
    Child startNoMore() {
        synchronized (state) {
            isEnding = true;
            if (child != null && !child.isReady()) {
                child.kill();
            }
            return child;
        }
    }

    /** Waits for an exchange of another thread for a time, and ends the child. */
    @Override
    public void close() {
        Child it = startNoMore();
        try {
            if (!lock.tryLock(PATIENCE, TimeUnit.MILLISECONDS)) {
                if (it != null) {
                    it.kill();
                }
                lock.lock();
            }
        } catch (InterruptedException why) {
            if (it != null) {
                it.kill();
            }
            lock.lock();
            Thread.currentThread().interrupt();
        }
        try {
            synchronized (state) {
                it = child;
                child = null;
            }
            if (it != null) {
                it.end(PATIENCE);
            }
        } finally {
            lock.unlock();
        }
    }
}
