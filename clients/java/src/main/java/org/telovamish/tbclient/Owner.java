package org.telovamish.tbclient;

import java.io.IOException;
import java.nio.file.Files;
import java.nio.file.Path;
import java.util.Comparator;
import java.util.Optional;
import java.util.stream.Stream;

/** A process that has a file locked. */
record Owner(long process) {
    private static final Path LOCKS = Path.of("/proc/locks");
    private static final int SHOWN = 200; // characters of a command

    /** The process that holds the lock of a file as far as the system says, or null. */
    static Owner of(Path path) {
        try (Stream<String> lines = Files.lines(LOCKS)) {
            String inode = ":" + Files.getAttribute(path, "unix:ino");
            String place = device((long) Files.getAttribute(path, "unix:dev")) + inode;
            // 1: FLOCK ADVISORY WRITE 4711 fe:00:10952783 0 EOF; one that waits has an arrow
            return lines.map(it -> it.strip().split("\\s+"))
                    .filter(it -> it.length > 5 && it[1].equals("FLOCK") && it[5].endsWith(inode))
                    // some file systems have another device there
                    .min(Comparator.comparing(it -> !it[5].equals(place)))
                    .map(it -> Long.parseLong(it[4]))
                    .filter(it -> it > 0) // otherwise it is none that this process may see
                    .map(Owner::new)
                    .orElse(null);
        } catch (IOException | RuntimeException why) {
            return null;
        }
    }

    private static String device(long number) {
        long major = number >> 8 & 0xfff | number >> 32 & ~0xfff;
        long minor = number & 0xff | number >> 12 & ~0xff;
        return String.format("%02x:%02x", major, minor);
    }

    private static String shown(ProcessHandle it) {
        String command = it.info().commandLine().orElse("");
        return "process " + it.pid() + " ("
                + command.substring(0, Math.min(command.length(), SHOWN)) + ")";
    }

    @Override
    public String toString() {
        Optional<ProcessHandle> found = ProcessHandle.of(process);
        Optional<ProcessHandle> parent = found.flatMap(ProcessHandle::parent);
        return found.map(Owner::shown).orElse("process " + process)
                + parent.map(it -> ", started by " + shown(it)).orElse("");
    }
}
