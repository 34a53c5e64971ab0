package org.telovamish.tbclient;

import java.io.IOException;
import java.net.InetAddress;
import java.net.InetSocketAddress;
import java.net.SocketAddress;
import java.net.UnixDomainSocketAddress;
import java.nio.file.FileSystems;
import java.nio.file.InvalidPathException;
import java.nio.file.Path;
import java.util.ArrayList;
import java.util.List;
import java.util.Objects;
import java.util.regex.Matcher;
import java.util.regex.Pattern;

/** The place at which a server listens: a Unix socket's path, or a host and a port. */
public final class Address {
    private static final int PORT_MAX = 65535;
    private static final int PORT = 3001; // if only a host is given
    private static final String HOST = "127.0.0.1"; // if only a port is given
    private static final Pattern TEXT =
            Pattern.compile("(?<alone>\\d+)|(\\[(?<number>[^\\]]+)\\]|(?<host>[^:\\[\\]]+|(?=:)))"
                    + "(:(?<port>\\d+))?");

    private final Path path;
    private final String host;
    private final int port;

    private Address(Path path, String host, int port) {
        this.path = path;
        this.host = host;
        this.port = port;
    }

    /**
     * A Unix socket.
     *
     * @param path its path
     * @return the address
     * @throws InvalidValueException if it is no path
     */
    public static Address unix(String path) {
        try {
            return unix(Path.of(Values.given("address", path)));
        } catch (InvalidPathException why) {
            throw new InvalidValueException("address", "is no path: " + why.getMessage());
        }
    }

    /**
     * A Unix socket.
     *
     * @param path its path
     * @return the address
     * @throws InvalidValueException if the path is empty, or of no file system of the computer's
     */
    public static Address unix(Path path) {
        if (Values.given("address", path).toString().isEmpty()) {
            throw new InvalidValueException("address", "is no path: it is empty");
        }
        if (path.getFileSystem() != FileSystems.getDefault()) {
            throw new InvalidValueException("address", "is a path within a file, as a zip file");
        }
        return new Address(path, null, 0);
    }

    /**
     * A port of a host.
     *
     * @param host the host's name or number. Names are looked up at each connecting
     * @param port the port, 1 to 65535
     * @return the address
     * @throws InvalidValueException if the host is empty, or there is no such port
     */
    public static Address tcp(String host, int port) {
        if (Values.given("address", host).isBlank()) {
            throw new InvalidValueException("address", "has no name of a host");
        }
        return new Address(null, host, (int) Values.within("port", port, 1, PORT_MAX));
    }

    /** Addresses of texts, of which each may be several with commas between. */
    static List<Address> parsed(String[] texts) {
        List<Address> found = new ArrayList<>();
        for (String text : texts) {
            for (String it : Values.given("replicaAddresses", text).split(",", -1)) {
                found.add(parsed(it.strip()));
            }
        }
        return found;
    }

    private static Address parsed(String text) {
        if (text.contains("/")) {
            return unix(text);
        }
        Matcher it = TEXT.matcher(text);
        if (text.isEmpty() || !it.matches()) {
            throw new InvalidValueException("replicaAddresses",
                    "has \"" + text + "\": write a port, HOST, HOST:PORT, or a path with a slash");
        }
        String port = it.group("alone") != null ? it.group("alone") : it.group("port");
        String host = it.group("number") != null ? it.group("number") : it.group("host");
        return tcp(host == null || host.isEmpty() ? HOST : host,
                port == null                ? PORT
                        : port.length() > 5 ? 0
                                            : Integer.parseInt(port));
    }

    boolean isUnix() {
        return path != null;
    }

    String host() {
        return host;
    }

    int port() {
        return port;
    }

    /** The places to connect to, in order. A host's name is looked up by the deadline. */
    List<SocketAddress> places(Lookup lookup, Deadline until) throws IOException {
        List<SocketAddress> found = new ArrayList<>();
        if (isUnix()) {
            found.add(UnixDomainSocketAddress.of(path));
        } else {
            for (InetAddress it : lookup.addresses(host, until)) {
                found.add(new InetSocketAddress(it, port));
            }
        }
        return found;
    }

    @Override
    public boolean equals(Object other) {
        return other instanceof Address it && Objects.equals(path, it.path)
                && Objects.equals(host, it.host) && port == it.port;
    }

    @Override
    public int hashCode() {
        return Objects.hash(path, host, port);
    }

    @Override
    public String toString() {
        if (isUnix()) {
            return path.toString();
        }
        return (host.contains(":") ? "[" + host + "]:" : host + ":") + port;
    }
}
