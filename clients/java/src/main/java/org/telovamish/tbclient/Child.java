package org.telovamish.tbclient;

import java.io.BufferedReader;
import java.io.IOException;
import java.io.InputStream;
import java.io.InputStreamReader;
import java.io.OutputStream;
import java.nio.charset.StandardCharsets;
import java.util.ArrayList;
import java.util.Arrays;
import java.util.List;
import java.util.concurrent.CompletableFuture;
import java.util.concurrent.TimeUnit;
import java.util.function.Consumer;
import java.util.regex.Pattern;

/** {@code tbd} as a process, which serves one request at a time. */
final class Child {
    static final Pattern READY = Pattern.compile("tbd: ready: commit \\d+, time (\\d+)");

    private static final Pattern NEWS = Pattern.compile("tbd: (made |reading |copied |cut ).*");
    private static final long LAST_WORDS = 1000; // ms in which what it said before its end is read
    private static final int MOMENT = 8; // bytes
    /** Becomes a command that ignores what a terminal sends to all processes, as Ctrl-C. */
    private static final List<String> APART =
            List.of("/bin/sh", "-c", "trap '' HUP INT QUIT TSTP; exec \"$0\" \"$@\"");
    /** From here on up to 127: APART could not become it. */
    static final int NOT_RUN = 126;

    private final Process process;
    private final OutputStream in;
    private final InputStream out;
    private final Thread listener;
    private final Consumer<String> hear;
    private volatile String fault = "";
    /** Whether it serves, once it does or has ended. */
    final CompletableFuture<Boolean> ready = new CompletableFuture<>();
    /** Its exit status, once it has ended; above 128 that of a signal. */
    final CompletableFuture<Integer> ended;

    /**
     * Starts it.
     *
     * @param words the command
     * @param hear gets its lines on standard error, except faults
     */
    Child(List<String> words, Consumer<String> hear) throws IOException {
        this.hear = hear;
        List<String> command = new ArrayList<>(APART);
        command.addAll(words);
        process = new ProcessBuilder(command).start();
        in = process.getOutputStream();
        out = process.getInputStream();
        listener = new Thread(this::listen, "tbclient-tbd");
        listener.setDaemon(true);
        listener.start();
        ended = process.onExit().thenApplyAsync(this::status, it -> {
            Thread thread = new Thread(it, "tbclient-end");
            thread.setDaemon(true);
            thread.start();
        });
    }

    /** The exit status, once what it said is read: what it started may hold its pipe open. */
    private int status(Process it) {
        try {
            listener.join(LAST_WORDS);
        } catch (InterruptedException nobody) {
            Thread.currentThread().interrupt();
        }
        ready.complete(false);
        return it.exitValue();
    }

    private void listen() {
        try (BufferedReader lines = new BufferedReader(
                     new InputStreamReader(process.getErrorStream(), StandardCharsets.UTF_8))) {
            for (String line = lines.readLine(); line != null; line = lines.readLine()) {
                take(line);
            }
        } catch (IOException why) {
            // it ended
        }
    }

    private void take(String line) {
        boolean isReady = READY.matcher(line).matches();
        if (isReady || NEWS.matcher(line).matches()) {
            hear.accept(line);
        } else if (!line.isBlank()) {
            fault = line.startsWith("tbd: ") ? line.substring("tbd: ".length()) : line;
        }
        if (isReady) {
            ready.complete(true);
        }
    }

    /** The line of its fault, once it has ended. */
    String fault() {
        return fault;
    }

    boolean isReady() {
        return ready.getNow(false);
    }

    /** Sends a moment and a request, and reads the reply. It fails if the child ends. */
    byte[] exchange(long moment, byte[] frame) throws IOException {
        byte[] head = new byte[MOMENT];
        Values.putLong(head, 0, moment);
        try {
            in.write(head);
            in.write(frame);
            in.flush();
        } catch (IOException why) {
            // so does the read; a reply that was written before its end is read
        }
        byte[] header = read(new byte[Layout.HEADER_SIZE], 0);
        Frames.testReply(header);
        Frames.testAsked(frame, header);
        int length = Layout.HEADER_SIZE + (int) Frames.length(header); // of at most 8190 items
        return read(Arrays.copyOf(header, length), Layout.HEADER_SIZE);
    }

    /** Fills bytes from a place on. */
    private byte[] read(byte[] into, int at) throws IOException {
        int count = out.readNBytes(into, at, into.length - at);
        if (count < into.length - at) {
            throw new IOException("the program ended");
        }
        return into;
    }

    void kill() {
        process.destroyForcibly();
    }

    /** Ends its input, and waits for its end; it is killed if that takes too long. */
    void end(long milliseconds) {
        try {
            in.close();
        } catch (IOException why) {
            // it ended
        }
        ended.copy().completeOnTimeout(-1, milliseconds, TimeUnit.MILLISECONDS).join();
        kill();
        ended.join();
    }
}
