package org.telovamish.tbclient;

import static org.junit.Assert.assertEquals;
import static org.junit.Assert.assertThrows;
import static org.junit.Assert.assertTrue;

import java.io.IOException;
import java.math.BigInteger;
import java.nio.file.FileSystem;
import java.nio.file.FileSystems;
import java.nio.file.Files;
import java.nio.file.Path;
import java.util.List;
import java.util.Map;
import java.util.concurrent.atomic.AtomicBoolean;
import java.util.concurrent.locks.LockSupport;
import java.util.stream.Stream;
import org.junit.Before;
import org.junit.Rule;
import org.junit.Test;
import org.junit.rules.TemporaryFolder;

/** The file of a session is whole or not there, and what is no session is refused. */
public class SavedFileTest {
    private static final Saved SAVED = new Saved(BigInteger.valueOf(7), BigInteger.ONE, 3, "00ff");
    private static final String TEXT =
            "{\"client\": 7, \"session\": 1, \"number\": 3, \"pending\": \"00ff\"}";

    @Rule public TemporaryFolder folder = new TemporaryFolder();
    private Path path;

    @Before
    public void name() {
        path = folder.getRoot().toPath().resolve("session.json");
    }

    @Test
    public void aFileHasTheTextThatClientsShare() throws IOException {
        SavedFile.write(path, SAVED);
        assertEquals(TEXT, Files.readString(path));
        assertEquals(SAVED, SavedFile.read(path));
        SavedFile.write(path, SAVED);
        assertEquals(1, folder.getRoot().list().length);
    }

    /** As on Windows: a folder cannot be opened, and there are no permissions of POSIX. */
    @Test
    public void aFileSystemThatIsNotOfPosix() throws IOException {
        Path zip = folder.getRoot().toPath().resolve("a.zip");
        try (FileSystem inside = FileSystems.newFileSystem(zip, Map.of("create", "true"))) {
            Path saved = inside.getPath("/session.json");
            for (int count = 0; count < 2; count++) { // over nothing, and over a file
                SavedFile.write(saved, SAVED);
                assertEquals(SAVED, SavedFile.read(saved));
            }
            try (Stream<Path> found = Files.list(inside.getPath("/"))) {
                assertEquals(List.of(saved), found.toList());
            }
        }
    }

    @Test
    public void aFileThatWasCutAnywhereIsRefused() throws IOException {
        for (int length = 0; length < TEXT.length(); length++) {
            Files.writeString(path, TEXT.substring(0, length));
            assertThrows(InvalidValueException.class, () -> SavedFile.read(path));
        }
    }

    @Test
    public void whatIsNoSessionIsRefused() throws IOException {
        List<String> wrong = List.of("[]", "null", TEXT + TEXT, TEXT.replace("7", "7.0"),
                TEXT.replace("7", "7e0"), TEXT.replace("7", "07"), TEXT.replace("7", "\"7\""),
                TEXT.replace("7", "9".repeat(1_000_000)), TEXT.replace("3", "-1"),
                TEXT.replace("3", "4294967296"), TEXT.replace("number", "client"),
                TEXT.replace("number", "nummer"), TEXT.replace("\"00ff\"", "null"),
                TEXT.replace("00ff", "\n"), TEXT.replace("00ff", "\u00e9"), "[".repeat(100_000));
        for (String it : wrong) {
            Files.writeString(path, it);
            assertThrows(it, InvalidValueException.class, () -> SavedFile.read(path));
        }
    }

    @Test
    public void textsMayBeEscaped() throws IOException {
        Files.writeString(path, TEXT.replace("client", "cl\\u0069ent").replace(" ", "\n\t "));
        assertEquals(SAVED, SavedFile.read(path));
    }

    @Test
    public void anInterruptIsKeptForTheCallerAndTheFileWritten() throws IOException {
        Thread.currentThread().interrupt();
        try {
            SavedFile.write(path, SAVED);
            assertEquals(SAVED, SavedFile.read(path));
        } finally {
            assertTrue(Thread.interrupted());
        }
        assertEquals(1, folder.getRoot().list().length);
    }

    @Test(timeout = 120_000)
    public void anInterruptWhileAFileIsWrittenIsNoFault() throws Exception {
        Thread writer = Thread.currentThread();
        AtomicBoolean ended = new AtomicBoolean();
        Thread interrupts = new Thread(() -> {
            for (int count = 0; count < 100; count++) {
                LockSupport.parkNanos(100_000);
                writer.interrupt();
            }
            ended.set(true);
        });
        interrupts.start();
        try {
            while (!ended.get()) {
                SavedFile.write(path, SAVED);
            }
        } finally {
            Thread.interrupted();
        }
        assertEquals(TEXT, Files.readString(path));
        assertEquals(1, folder.getRoot().list().length);
    }

    @Test
    public void whatTheSystemRefusesLeavesNothing() throws IOException {
        assertThrows(FileException.class, () -> SavedFile.read(path));
        Path none = path.resolveSibling("none").resolve("session.json");
        assertThrows(FileException.class, () -> SavedFile.write(none, SAVED));
        Path folders = folder.newFolder().toPath();
        assertThrows(InvalidValueException.class, () -> SavedFile.write(folders, SAVED));
        assertThrows(InvalidValueException.class, () -> SavedFile.read(folders));
        assertThrows(InvalidValueException.class, () -> SavedFile.read(Path.of("/dev/null")));
        assertEquals(1, folder.getRoot().list().length);
    }
}
