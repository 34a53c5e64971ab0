package org.telovamish.tbclient;

import java.io.IOException;
import java.nio.charset.StandardCharsets;
import java.nio.file.Files;
import java.nio.file.Path;
import java.nio.file.attribute.PosixFilePermissions;
import java.util.List;
import java.util.function.BooleanSupplier;
import java.util.stream.Stream;

/** Programs and files for the tests of {@code Client.open}. */
final class Keepers {
    private static final Path STAND_IN =
            Path.of("../python/tests/stand_in_tbd.py").toAbsolutePath().normalize();
    private static final long SECONDS = 120; // that something may take on a busy computer

    private Keepers() {}

    /** A program of the shell. */
    static Path script(Path folder, String name, String... lines) throws IOException {
        Path place = folder.resolve(name);
        Files.writeString(place, "#!/bin/sh\n" + String.join("\n", lines) + "\n");
        return Files.setPosixFilePermissions(place, PosixFilePermissions.fromString("rwxr-xr-x"));
    }

    /** The line that becomes the stand-in for tbd. */
    static String standIn() {
        return "exec python3 -SE '" + STAND_IN + "' \"$@\"";
    }

    /** tbd of the variable TBD, or its stand-in, which fails as it is told. */
    static Path keeper(Path folder, String fail) throws IOException {
        String given = System.getenv().getOrDefault("TBD", "");
        if (!given.isEmpty() && fail.isEmpty()) {
            return Path.of(given);
        }
        return script(folder, "tbd", "export FAIL='" + fail + "'", standIn());
    }

    /** The processes that serve a file. */
    static List<Long> serving(Path file) throws IOException {
        String words = "\0run\0" + file + "\0";
        try (Stream<Path> all = Files.list(Path.of("/proc"))) {
            return all.filter(it -> it.getFileName().toString().matches("\\d+"))
                    .filter(it -> command(it).contains(words))
                    .map(it -> Long.valueOf(it.getFileName().toString()))
                    .toList();
        }
    }

    private static String command(Path process) {
        try {
            byte[] text = Files.readAllBytes(process.resolve("cmdline"));
            return new String(text, StandardCharsets.ISO_8859_1);
        } catch (IOException why) {
            return ""; // it ended
        }
    }

    /** Kills the processes that serve a file. */
    static void kill(Path file) throws IOException {
        for (long it : serving(file)) {
            ProcessHandle.of(it).ifPresent(ProcessHandle::destroyForcibly);
        }
    }

    /** Waits until this holds. */
    static void until(BooleanSupplier holds) throws InterruptedException {
        for (long end = System.nanoTime() + SECONDS * Moments.SECOND; !holds.getAsBoolean();) {
            if (System.nanoTime() > end) {
                throw new AssertionError("not within " + SECONDS + " seconds");
            }
            Thread.sleep(2);
        }
    }

    /** Waits until no process serves a file. */
    static void untilEnded(Path file) throws InterruptedException {
        until(() -> {
            try {
                return serving(file).isEmpty();
            } catch (IOException why) {
                throw new AssertionError(why);
            }
        });
    }

    /** A transfer of 10 from account 1 to account 2. */
    static TransferBatch sale(java.math.BigInteger id) {
        TransferBatch batch = new TransferBatch(1);
        batch.add();
        batch.setId(id);
        batch.setDebitAccountId(1);
        batch.setCreditAccountId(2);
        batch.setAmount(10);
        batch.setLedger(700);
        batch.setCode(10);
        return batch;
    }

    /** The accounts 1 and 2. */
    static AccountBatch accounts() {
        AccountBatch batch = new AccountBatch(2);
        for (long id = 1; id <= 2; id++) {
            batch.add();
            batch.setId(id);
            batch.setLedger(700);
            batch.setCode(10);
        }
        return batch;
    }

    /** What account 2 was credited. */
    static long credited(Client ledger) {
        IdBatch ids = new IdBatch(1);
        ids.add(2);
        AccountBatch found = ledger.lookupAccounts(ids);
        found.next();
        return found.getCreditsPosted().longValueExact();
    }
}
