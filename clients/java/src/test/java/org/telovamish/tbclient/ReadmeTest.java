package org.telovamish.tbclient;

import static org.junit.Assert.assertEquals;
import static org.junit.Assert.assertTrue;

import java.io.BufferedReader;
import java.io.File;
import java.io.IOException;
import java.io.InputStreamReader;
import java.net.URL;
import java.nio.charset.StandardCharsets;
import java.nio.file.Files;
import java.nio.file.Path;
import java.util.List;
import java.util.concurrent.TimeUnit;
import java.util.regex.Matcher;
import java.util.regex.Pattern;
import org.junit.Rule;
import org.junit.Test;
import org.junit.rules.TemporaryFolder;

/** The program of README.md, as it is there, over a listener and its server. */
public class ReadmeTest {
    private static final Path TOP = Path.of("../..").toAbsolutePath().normalize();
    private static final int SESSIONS = 8;
    private static final int[] KILLS = {150, 350, 250}; // ms after the file is there

    @Rule public TemporaryFolder folder = new TemporaryFolder();

    /** The class path of a class that is compiled next to the client. */
    private String compiled(String name, String text) throws IOException, InterruptedException {
        Files.writeString(folder.getRoot().toPath().resolve(name), text);
        URL place = Session.class.getProtectionDomain().getCodeSource().getLocation();
        String client = new File(place.getPath()).getAbsolutePath();
        Process javac = new ProcessBuilder("javac", "-Xlint:all", "-Werror", "-cp", client, name)
                                .directory(folder.getRoot())
                                .inheritIO()
                                .start();
        assertEquals("javac", 0, javac.waitFor());
        return client + ":.";
    }

    /** The README's block that begins so. */
    private static String shown(String begins) throws IOException {
        Pattern block =
                Pattern.compile("```java\n(" + Pattern.quote(begins) + ".*?)```", Pattern.DOTALL);
        Matcher found = block.matcher(Files.readString(Path.of("README.md")));
        assertTrue("README.md has a block: " + begins, found.find());
        return found.group(1);
    }

    private Process listener() throws IOException {
        List<String> words = List.of(TOP + "/server/out/tb-listen", "--unix", "ledger.sock", "--",
                "python3", "-B", TOP + "/clients/python/tests/stand_in_tbd.py", "run",
                "ledger.journal", String.valueOf(SESSIONS));
        Process it = new ProcessBuilder(words)
                             .directory(folder.getRoot())
                             .redirectErrorStream(true)
                             .start();
        BufferedReader said = new BufferedReader(
                new InputStreamReader(it.getInputStream(), StandardCharsets.UTF_8));
        String line = said.readLine();
        while (line != null && line.contains("tbd: made")) { // the server may be the first
            line = said.readLine();
        }
        assertEquals("tb_listen: listens on ledger.sock", line);
        return it;
    }

    private Process sale(String path) throws IOException {
        return new ProcessBuilder("java", "-XX:+UseSerialGC", "-cp", path, "Sale")
                .directory(folder.getRoot())
                .redirectErrorStream(true)
                .start();
    }

    private String printed(String path) throws IOException, InterruptedException {
        Process sale = sale(path);
        String said = new String(sale.getInputStream().readAllBytes());
        assertEquals(said, 0, sale.waitFor());
        return said;
    }

    /** Makes a transfer between the program's accounts by another client. */
    private void sellElsewhere(long amount) {
        Path place = folder.getRoot().toPath().resolve("ledger.sock");
        Transfer.Builder sale = Transfer.builder().id(Ids.id()).ledger(700).code(10);
        sale.debitAccountId(1).creditAccountId(2).amount(amount);
        try (Session other = Session.register(new SocketTransport(Address.unix(place)))) {
            Session.requireOk(other.createTransfers(List.of(sale.build())));
        }
    }

    /** Evicts the program's session: as many others register as the server keeps. */
    private void evict() {
        Path place = folder.getRoot().toPath().resolve("ledger.sock");
        try (SocketTransport transport = new SocketTransport(Address.unix(place))) {
            for (int at = 0; at < SESSIONS; at++) {
                Session.register(transport);
            }
        }
    }

    @Test
    public void theLinesOnASharedClientCompile() throws Exception {
        compiled("Shared.java",
                "import org.telovamish.tbclient.*;\nclass Shared {\n    void shared() {\n"
                        + shown("try (Client client") + "    }\n}\n");
    }

    /** The lines on a file, run twice. */
    @Test(timeout = 120_000)
    public void theLinesOnAFile() throws Exception {
        String path = compiled("Opened.java",
                "import java.nio.file.Path;\nimport org.telovamish.tbclient.*;\nclass Opened {\n"
                        + "    public static void main(String[] words) {\n"
                        + shown("try (Client ledger") + "    }\n}\n");
        Path root = folder.getRoot().toPath();
        for (String said : new String[] {"tbd: made " + root.resolve("books.tbk") + "\n", ""}) {
            ProcessBuilder it = new ProcessBuilder("java", "-cp", path, "Opened")
                                        .directory(folder.getRoot())
                                        .redirectErrorStream(true);
            it.environment().put("TBD", Keepers.keeper(root, "").toString());
            Process ran = it.start();
            assertEquals(said, new String(ran.getInputStream().readAllBytes()));
            assertEquals(0, ran.waitFor());
        }
    }

    @Test(timeout = 120_000)
    public void theProgramMovesMoneyOnceAmidKills() throws Exception {
        String path = compiled("Sale.java", shown("import "));
        Process listener = listener();
        try {
            for (int kill : KILLS) {
                Process killed = sale(path);
                killed.waitFor(kill, TimeUnit.MILLISECONDS);
                killed.destroyForcibly().waitFor();
                evict();
            }
            assertEquals("1000\n", printed(path));
            sellElsewhere(5);
            assertEquals("1005\n", printed(path)); // and not the reply of the run before
            evict();
            assertEquals("1005\n", printed(path));
        } finally {
            listener.destroy();
            listener.waitFor();
        }
    }
}
