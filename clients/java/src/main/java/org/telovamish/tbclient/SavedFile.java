package org.telovamish.tbclient;

import java.io.IOException;
import java.io.InputStream;
import java.math.BigInteger;
import java.nio.ByteBuffer;
import java.nio.channels.ClosedByInterruptException;
import java.nio.channels.FileChannel;
import java.nio.charset.StandardCharsets;
import java.nio.file.FileAlreadyExistsException;
import java.nio.file.Files;
import java.nio.file.NoSuchFileException;
import java.nio.file.Path;
import java.nio.file.StandardCopyOption;
import java.nio.file.StandardOpenOption;
import java.nio.file.attribute.BasicFileAttributes;
import java.nio.file.attribute.FileAttribute;
import java.nio.file.attribute.PosixFilePermissions;
import java.util.Map;
import java.util.Set;
import java.util.concurrent.atomic.AtomicLong;

/** The file that keeps a session: written whole or not at all, and read if it is one. */
final class SavedFile {
    private static final int SIZE_MAX = 1 << 22; // bytes: the largest request takes half, in hex
    private static final int PIECE = 1 << 16; // bytes: as many as Java keeps for each thread
    private static final int DIGITS_MAX = 40; // more than a number of 128 bits has
    private static final int LINKS_MAX = 40; // that the system follows
    private static final AtomicLong COUNT = new AtomicLong();
    private static final FileAttribute<?>[] OWNERS = {
            PosixFilePermissions.asFileAttribute(PosixFilePermissions.fromString("rw-------"))};

    private SavedFile() {}

    // Reading

    static Saved read(Path path) {
        try {
            testIsFile(Values.given("path", path));
            return saved(Json.read(textOf(path)));
        } catch (Json.Fault fault) {
            throw new InvalidValueException("saved", "is no session: " + fault.getMessage());
        } catch (IOException why) {
            throw new FileException(path + " cannot be read: " + why, why);
        }
    }

    /** Refuses what gives no end or waits for others: a folder, a pipe, a device. */
    private static void testIsFile(Path path) throws IOException {
        if (!Files.readAttributes(path, BasicFileAttributes.class).isRegularFile()) {
            throw new InvalidValueException("path", "is no file, but a folder, a pipe or a device");
        }
    }

    private static String textOf(Path path) throws IOException {
        byte[] data;
        try (InputStream file = Files.newInputStream(path)) {
            data = file.readNBytes(SIZE_MAX + 1);
        }
        if (data.length > SIZE_MAX) {
            throw new InvalidValueException("saved", "has more than " + SIZE_MAX + " bytes");
        }
        for (byte it : data) {
            if (it < 0) {
                throw new InvalidValueException("saved", "is no session: it is no ASCII");
            }
        }
        return new String(data, StandardCharsets.US_ASCII);
    }

    private static Saved saved(Object json) {
        if (!(json instanceof Map<?, ?> fields)) {
            throw new InvalidValueException("saved", "is no session: it is no object");
        }
        BigInteger client = number(fields, "client");
        BigInteger session = number(fields, "session");
        BigInteger number = Values.whole("saved.number", number(fields, "number"), 32);
        if (!(field(fields, "pending") instanceof String pending)) {
            throw new InvalidValueException("saved.pending", "must be a text");
        }
        return new Saved(client, session, number.longValue(), pending);
    }

    private static Object field(Map<?, ?> fields, String name) {
        if (!fields.containsKey(name)) {
            throw new InvalidValueException("saved." + name, "is missing");
        }
        return fields.get(name);
    }

    private static BigInteger number(Map<?, ?> fields, String name) {
        if (!(field(fields, name) instanceof Json.Number it) || !it.isInteger()) {
            throw new InvalidValueException("saved." + name, "must be an integer");
        }
        if (it.text().length() > DIGITS_MAX) {
            throw new InvalidValueException(
                    "saved." + name, "has " + it.text().length() + " digits");
        }
        return new BigInteger(it.text());
    }

    // Writing

    /**
     * Puts a file at this path, or at the target of a link there, with the old one's permissions,
     * or 0600. If that fails, the old file is left, and nothing next to it. Only a kill may leave
     * the new one next to it, which nobody reads.
     */
    static void write(Path path, Saved saved) {
        try {
            testIsFile(Values.given("path", path));
        } catch (NoSuchFileException none) {
            // the first time
        } catch (IOException why) {
            throw new FileException(path + " cannot be written: " + why, why);
        }
        String text = "{\"client\": " + saved.client() + ", \"session\": " + saved.session()
                + ", \"number\": " + saved.number() + ", \"pending\": \"" + saved.pending() + "\"}";
        try {
            replaceWhole(linked(path.toAbsolutePath()), text.getBytes(StandardCharsets.US_ASCII));
        } catch (IOException why) {
            throw new FileException(path + " cannot be written: " + why, why);
        }
    }

    /** The path that the symbolic links at a path lead to, whether a file is there or not. */
    private static Path linked(Path path) throws IOException {
        Path found = path;
        for (int left = LINKS_MAX; left > 0 && Files.isSymbolicLink(found); left--) {
            found = found.resolveSibling(Files.readSymbolicLink(found));
        }
        return found;
    }

    /**
     * Replaces a file. An interrupt, which closes a file that is written, is kept for the caller.
     */
    private static void replaceWhole(Path path, byte[] data) throws IOException {
        boolean isInterrupted = false;
        try {
            while (true) {
                try {
                    replace(path, data);
                    return;
                } catch (ClosedByInterruptException why) {
                    isInterrupted |= Thread.interrupted();
                }
            }
        } finally {
            if (isInterrupted) {
                Thread.currentThread().interrupt();
            }
        }
    }

    private static void replace(Path path, byte[] data) throws IOException {
        Path name = path.getFileName();
        if (name == null) {
            throw new NoSuchFileException(path.toString());
        }
        Path beside = written(path, name.toString(), data);
        try {
            Files.move(beside, path, StandardCopyOption.ATOMIC_MOVE,
                    StandardCopyOption.REPLACE_EXISTING);
        } catch (IOException | RuntimeException why) {
            Files.deleteIfExists(beside);
            throw why;
        }
        if (isPosix(path)) { // Windows opens no folder, and has no call to sync one
            try (FileChannel folder = FileChannel.open(path.getParent(), StandardOpenOption.READ)) {
                folder.force(true);
            }
        }
    }

    private static boolean isPosix(Path path) {
        return path.getFileSystem().supportedFileAttributeViews().contains("posix");
    }

    /** A new file with these bytes, on the device. No other process, or thread, has its name. */
    private static Path written(Path path, String name, byte[] data) throws IOException {
        while (true) {
            String own = ProcessHandle.current().pid() + "-" + COUNT.incrementAndGet();
            Path beside = path.resolveSibling(name + "." + own + ".new");
            try (FileChannel file = FileChannel.open(beside,
                         Set.of(StandardOpenOption.CREATE_NEW, StandardOpenOption.WRITE),
                         isPosix(path) ? OWNERS : new FileAttribute<?>[ 0 ])) {
                keepPermissions(path, beside);
                fill(file, beside, data);
                return beside;
            } catch (FileAlreadyExistsException left) {
                // by an earlier process of this number, that was killed
            }
        }
    }

    /** Gives a new file the permissions of the old one, if there is one and it has any. */
    private static void keepPermissions(Path old, Path fresh) {
        try {
            Files.setPosixFilePermissions(fresh, Files.getPosixFilePermissions(old));
        } catch (IOException | UnsupportedOperationException why) {
            // the first time, or a file system without permissions
        }
    }

    private static void fill(FileChannel file, Path beside, byte[] data) throws IOException {
        try {
            ByteBuffer rest = ByteBuffer.wrap(data);
            while (rest.position() < data.length) {
                rest.limit(Math.min(rest.position() + PIECE, data.length));
                file.write(rest);
            }
            file.force(true);
        } catch (IOException | RuntimeException why) {
            Files.deleteIfExists(beside);
            throw why;
        }
    }
}
