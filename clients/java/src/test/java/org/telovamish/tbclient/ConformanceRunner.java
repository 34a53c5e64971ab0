package org.telovamish.tbclient;

import java.io.BufferedReader;
import java.io.IOException;
import java.io.InputStreamReader;
import java.io.PrintStream;
import java.math.BigDecimal;
import java.math.BigInteger;
import java.nio.charset.StandardCharsets;
import java.nio.file.Path;
import java.time.Duration;
import java.util.ArrayList;
import java.util.Collections;
import java.util.HashMap;
import java.util.HexFormat;
import java.util.Iterator;
import java.util.LinkedHashMap;
import java.util.List;
import java.util.Map;
import java.util.concurrent.Callable;
import java.util.concurrent.ConcurrentHashMap;
import java.util.concurrent.FutureTask;
import java.util.function.Consumer;
import java.util.stream.Stream;
import javax.net.ssl.SSLContext;

/**
 * The runner of this client for the conformance kit: a JSON line in, a JSON line out.
 *
 * <p>clients/conformance/PROTOCOL.md says what it reads and writes. It has no rules of its own.
 */
public final class ConformanceRunner {
    private static final List<String> FEATURES =
            List.of("unix", "tcp", "addresses", "tls", "parallel", "cancel", "shared");

    private final Map<String, Transport> transports = new ConcurrentHashMap<>();
    private final Map<String, Session> sessions = new ConcurrentHashMap<>();
    private final Map<String, Client> clients = new ConcurrentHashMap<>();
    private final Map<String, SharedRunner.Begun> begun = new ConcurrentHashMap<>();

    /** The kit asks for what this runner does not know. */
    private static final class Unsupported extends RuntimeException {
        private static final long serialVersionUID = 1L;

        Unsupported(String message) {
            super(message);
        }
    }

    /** The types of Java do not let a caller pass such a value. */
    private static final class Unrepresentable extends RuntimeException {
        private static final long serialVersionUID = 1L;

        Unrepresentable(Object value) {
            super("no such value can be passed: " + value);
        }
    }

    /**
     * Reads lines until there are no more.
     *
     * @param words none
     * @throws Exception if a line is not a step
     */
    public static void main(String[] words) throws Exception {
        ConformanceRunner runner = new ConformanceRunner();
        BufferedReader in =
                new BufferedReader(new InputStreamReader(System.in, StandardCharsets.UTF_8));
        PrintStream out = new PrintStream(System.out, false, StandardCharsets.UTF_8);
        for (String line = in.readLine(); line != null; line = in.readLine()) {
            StringBuilder text = new StringBuilder();
            write(text, runner.answer(fields(Json.read(line))));
            out.append(text).append('\n').flush();
        }
    }

    private Map<String, Object> answer(Map<String, Object> line) {
        try {
            return one("ok", call(line));
        } catch (ClientException why) {
            return one("error", errorOf(why));
        } catch (SharedRunner.Left why) {
            return one("error", one("name", "Cancelled"));
        } catch (Unsupported why) {
            return one("unsupported", why.getMessage());
        } catch (Unrepresentable why) {
            return one("unrepresentable", why.getMessage());
        }
    }

    private Object call(Map<String, Object> line) {
        String name = String.valueOf(line.get("do"));
        switch (name) {
            case "hello":
                return hello();
            case "reset":
                return reset();
            case "connect":
                return connect(line);
            case "open":
            case "register":
            case "load":
            case "resume":
                return began(name, line);
            case "prepare":
                Operation operation = operation(line.get("operation"));
                List<?> items = items(operation, line.get("items"), line);
                session(line).prepare(operation, items);
                if (line.containsKey("changes")) {
                    Collections.fill(items, null); // an item itself never changes
                }
                return null;
            case "retry":
                return said(line, session(line).retry(time(line, "within")));
            case "ask":
                return asked(line);
            case "saved":
                return shown(session(line).saved());
            case "save":
                session(line).save(Path.of((String) line.get("path")));
                return null;
            case "in_doubt":
                return session(line).inDoubt().map(ConformanceRunner::shown).orElse(null);
            case "close":
                return closed(line);
            case "drop":
                sessions.remove((String) line.get("session"));
                return null;
            case "ids":
                return line.containsKey("times") ? idsOf(line) : ids(line);
            case "share":
                return share(line);
            case "begin":
                Operation kind = operation(line.get("operation"));
                List<?> given = items(kind, line.get("items"), line);
                begun.put((String) line.get("call"),
                        SharedRunner.begin(
                                client(line, "shared"), kind, given, time(line, "within")));
                return null;
            case "end":
                return said(line, begun(line).end());
            case "leave":
                begun(line).future().cancel(true);
                return null;
            case "parallel":
                return together(list(line.get("calls"))
                                        .stream()
                                        .<Callable<Object>>map(it -> () -> answer(fields(it)))
                                        .toList());
            default:
                throw new Unsupported("no call " + name);
        }
    }

    // Calls

    private static Object hello() {
        Map<String, Object> found = new LinkedHashMap<>();
        found.put("protocol", 1);
        found.put("client", "tbclient");
        found.put("language", "Java " + Runtime.version());
        found.put("features", FEATURES);
        return found;
    }

    private Object reset() {
        begun.values().forEach(it -> it.future().cancel(true));
        begun.clear();
        clients.values().forEach(it -> new Thread(it::close).start());
        clients.clear();
        transports.values().forEach(Transport::close);
        transports.clear();
        sessions.clear();
        return null;
    }

    private Object share(Map<String, Object> line) {
        List<String> addresses = new ArrayList<>();
        for (Object it : list(line.get("addresses"))) {
            Map<String, Object> address = fields(it);
            addresses.add(address.containsKey("unix")
                            ? (String) address.get("unix")
                            : address.get("host") + ":" + count(address, "port"));
        }
        ClientOptions options = ClientOptions.DEFAULT;
        if (line.containsKey("timeout")) {
            options = options.withTimeout(time(line, "timeout"));
        }
        if (line.containsKey("sessions")) {
            options = options.withSessions(count(line, "sessions"));
        }
        String[] places = addresses.toArray(new String[0]);
        clients.put((String) line.get("shared"), new Client(UInt128.asBytes(0), places, options));
        return null;
    }

    private Client client(Map<String, Object> line, String name) {
        Client client = clients.get(String.valueOf(line.get(name)));
        if (client == null) {
            throw new Unsupported("no shared client " + line.get(name));
        }
        return client;
    }

    private SharedRunner.Begun begun(Map<String, Object> line) {
        SharedRunner.Begun call = begun.get(String.valueOf(line.get("call")));
        if (call == null) {
            throw new Unsupported("no call " + line.get("call"));
        }
        return call;
    }

    private Object connect(Map<String, Object> line) {
        List<Address> addresses = new ArrayList<>();
        for (Object it : list(line.get("addresses"))) {
            Map<String, Object> address = fields(it);
            addresses.add(address.containsKey("unix")
                            ? Address.unix((String) address.get("unix"))
                            : Address.tcp((String) address.get("host"), count(address, "port")));
        }
        Duration timeout =
                line.containsKey("timeout") ? time(line, "timeout") : SocketTransport.TIMEOUT;
        SSLContext tls = line.containsKey("tls") ? tls(fields(line.get("tls"))) : null;
        transports.put(
                (String) line.get("transport"), new SocketTransport(addresses, timeout, tls));
        return null;
    }

    private static SSLContext tls(Map<String, Object> given) {
        WarmTls.up();
        Path authorities = Path.of((String) given.get("ca"));
        if (!given.containsKey("cert")) {
            return Tls.context(authorities);
        }
        Path certificate = Path.of((String) given.get("cert"));
        return Tls.context(authorities, certificate, Path.of((String) given.get("key")));
    }

    private Object began(String how, Map<String, Object> line) {
        Transport transport = transports.get((String) line.get("transport"));
        if (transport == null) {
            throw new Unsupported("no transport " + line.get("transport"));
        }
        SessionOptions options = options(line);
        Session session;
        switch (how) {
            case "load":
                session = Session.load(transport, Path.of((String) line.get("path")), options);
                break;
            case "resume":
                session = Session.resume(transport, saved(fields(line.get("saved"))), options);
                break;
            case "open":
                session = new Session(transport, client(line), options);
                break;
            default:
                session = Session.register(transport, client(line), options, time(line, "within"));
        }
        sessions.put((String) line.get("session"), session);
        Map<String, Object> found = shown(session.saved());
        if (!how.equals("load") && !how.equals("resume")) {
            found.keySet().retainAll(
                    how.equals("open") ? List.of("client") : List.of("client", "session"));
        }
        return found;
    }

    private static BigInteger client(Map<String, Object> line) {
        return line.containsKey("client") ? wide(line.get("client")) : Ids.id();
    }

    private static SessionOptions options(Map<String, Object> line) {
        SessionOptions options = SessionOptions.DEFAULT;
        if (line.containsKey("attempts")) {
            options = options.withAttempts(count(line, "attempts"));
        }
        return line.containsKey("pause") ? options.withPause(time(line, "pause")) : options;
    }

    private static Saved saved(Map<String, Object> given) {
        for (String name : List.of("client", "session", "number", "pending")) {
            if (!given.containsKey(name)) {
                throw new Unrepresentable("a Saved without " + name);
            }
        }
        Object pending = given.get("pending");
        if (pending != null && !(pending instanceof String)) {
            throw new Unrepresentable(pending);
        }
        return new Saved(wide(given.get("client")), wide(given.get("session")),
                narrow(given.get("number")), (String) pending);
    }

    private Object asked(Map<String, Object> line) {
        Operation operation = operation(line.get("operation"));
        List<?> items = items(operation, line.get("items"), line);
        Duration within = time(line, "within");
        if (line.containsKey("shared")) {
            Client client = client(line, "shared");
            return said(line, SharedRunner.ask(client, operation, items, within));
        }
        Session session = session(line);
        switch (operation) {
            case REGISTER:
                session.prepare(operation, items);
                return said(line, session.retry(within));
            case CREATE_ACCOUNTS:
                return said(line,
                        new Answer.AccountResults(session.createAccounts(cast(items), within)));
            case CREATE_TRANSFERS:
                return said(line,
                        new Answer.TransferResults(session.createTransfers(cast(items), within)));
            case LOOKUP_ACCOUNTS:
                return said(line, new Answer.Accounts(session.lookupAccounts(cast(items), within)));
            default:
                return said(
                        line, new Answer.Transfers(session.lookupTransfers(cast(items), within)));
        }
    }

    /** A list whose items may be of another kind: as a caller may pass it, with a warning. */
    @SuppressWarnings("unchecked")
    private static <T> List<T> cast(List<?> items) {
        return (List<T>) items;
    }

    private Object closed(Map<String, Object> line) {
        if (line.containsKey("shared")) {
            client(line, "shared").close();
        } else if (line.containsKey("session")) {
            session(line).close();
        } else {
            transports.get((String) line.get("transport")).close();
        }
        return null;
    }

    private Session session(Map<String, Object> line) {
        Session session = sessions.get(String.valueOf(line.get("session")));
        if (session == null) {
            throw new Unsupported("no session " + line.get("session"));
        }
        return session;
    }

    private static Object idsOf(Map<String, Object> line) {
        List<Object> times = list(line.get("times"));
        Iterator<Object> moments = times.iterator();
        Iterator<Object> drawn = list(line.get("random")).iterator();
        Ids ids = new Ids(
                ()
                        -> new BigDecimal(((Json.Number) moments.next()).text()).longValue(),
                () -> HexFormat.of().parseHex((String) drawn.next()));
        return times.stream().map(it -> ids.next().toString()).toList();
    }

    private static Object ids(Map<String, Object> line) {
        int threads = line.containsKey("threads") ? count(line, "threads") : 1;
        int count = line.containsKey("count") ? count(line, "count") : 1;
        Callable<Object> some =
                () -> Stream.generate(Ids::id).limit(count / threads).map(String::valueOf).toList();
        return together(Collections.nCopies(threads, some))
                .stream()
                .flatMap(it -> list(it).stream())
                .toList();
    }

    private static List<Object> together(List<Callable<Object>> calls) {
        List<FutureTask<Object>> tasks = calls.stream().map(FutureTask::new).toList();
        tasks.forEach(it -> new Thread(it).start());
        List<Object> found = new ArrayList<>();
        for (FutureTask<Object> it : tasks) {
            try {
                found.add(it.get());
            } catch (Exception why) {
                throw new IllegalStateException(why);
            }
        }
        return found;
    }

    // Values that are given

    private static Operation operation(Object given) {
        for (Operation it : Operation.values()) {
            if (it.label().equals(given)) {
                return it;
            }
        }
        if (given == null) {
            return null;
        }
        throw new Unrepresentable(given);
    }

    /** A text is an integer; other kinds are marked. */
    private static BigInteger wide(Object given) {
        if (given == null) {
            return null;
        }
        if (!(given instanceof String text)) {
            throw new Unrepresentable(given);
        }
        return new BigInteger(text);
    }

    private static long narrow(Object given) {
        BigInteger wide = wide(given);
        if (wide == null || wide.bitLength() > 63) {
            throw new Unrepresentable(given);
        }
        return wide.longValue();
    }

    private static int narrower(Object given) {
        long value = narrow(given);
        if (value != (int) value) {
            throw new Unrepresentable(given);
        }
        return (int) value;
    }

    private static int count(Map<String, Object> line, String name) {
        if (!(line.get(name) instanceof Json.Number it) || !it.isInteger()) {
            throw new Unrepresentable(line.get(name));
        }
        return narrower(it.text());
    }

    private static Duration time(Map<String, Object> line, String name) {
        Object given = line.get(name);
        if (given == null) {
            return null;
        }
        if (!(given instanceof Json.Number it)) {
            throw new Unrepresentable(given);
        }
        return Duration.ofNanos(new BigDecimal(it.text()).movePointRight(9).longValue());
    }

    private static List<?> items(Operation operation, Object given, Map<String, Object> line) {
        if (given == null) {
            return line.containsKey("items") ? null : List.of();
        }
        if (given instanceof List) {
            List<Object> found = new ArrayList<>();
            list(given).forEach(it -> found.add(item(operation, it)));
            return found;
        }
        if (!(given instanceof Map) || !fields(given).containsKey("count")) {
            throw new Unrepresentable(given);
        }
        Object first = fields(given).get("first");
        int count = count(fields(given), "count");
        List<Object> found = new ArrayList<>();
        for (int at = 0; at < count; at++) {
            found.add(item(operation, moved(first, at)));
        }
        return found;
    }

    private static Object moved(Object first, int at) {
        BigInteger more = BigInteger.valueOf(at);
        if (!(first instanceof Map)) {
            return wide(first).add(more).toString();
        }
        Map<String, Object> item = new LinkedHashMap<>(fields(first));
        item.put("id", wide(item.get("id")).add(more).toString());
        return item;
    }

    private static Object item(Operation operation, Object given) {
        if (!(given instanceof Map)) {
            return wide(given);
        }
        Map<String, Object> item = fields(given);
        if (!item.containsKey("kind") && !item.containsKey("id")) {
            throw new Unrepresentable(given);
        }
        String kind = operation == Operation.CREATE_ACCOUNTS ? "account" : "transfer";
        return item.getOrDefault("kind", kind).equals("account") ? account(item) : transfer(item);
    }

    private static Account account(Map<String, Object> item) {
        Account.Builder it = Account.builder();
        set(item, "id", given -> it.id(wide(given)));
        set(item, "debits_pending", given -> it.debitsPending(wide(given)));
        set(item, "debits_posted", given -> it.debitsPosted(wide(given)));
        set(item, "credits_pending", given -> it.creditsPending(wide(given)));
        set(item, "credits_posted", given -> it.creditsPosted(wide(given)));
        set(item, "user_data_128", given -> it.userData128(wide(given)));
        set(item, "user_data_64", given -> it.userData64(wide(given)));
        set(item, "user_data_32", given -> it.userData32(narrow(given)));
        set(item, "reserved", given -> it.reserved(narrow(given)));
        set(item, "ledger", given -> it.ledger(narrow(given)));
        set(item, "code", given -> it.code(narrower(given)));
        set(item, "flags", given -> it.flags(flags(AccountFlags.class, given)));
        set(item, "timestamp", given -> it.timestamp(wide(given)));
        return it.build();
    }

    private static Transfer transfer(Map<String, Object> item) {
        Transfer.Builder it = Transfer.builder();
        set(item, "id", given -> it.id(wide(given)));
        set(item, "debit_account_id", given -> it.debitAccountId(wide(given)));
        set(item, "credit_account_id", given -> it.creditAccountId(wide(given)));
        set(item, "amount", given -> it.amount(wide(given)));
        set(item, "pending_id", given -> it.pendingId(wide(given)));
        set(item, "user_data_128", given -> it.userData128(wide(given)));
        set(item, "user_data_64", given -> it.userData64(wide(given)));
        set(item, "user_data_32", given -> it.userData32(narrow(given)));
        set(item, "timeout", given -> it.timeout(narrow(given)));
        set(item, "ledger", given -> it.ledger(narrow(given)));
        set(item, "code", given -> it.code(narrower(given)));
        set(item, "flags", given -> it.flags(flags(TransferFlags.class, given)));
        set(item, "timestamp", given -> it.timestamp(wide(given)));
        return it.build();
    }

    private static void set(Map<String, Object> item, String name, Consumer<Object> setter) {
        if (item.containsKey(name)) {
            setter.accept(item.get(name));
        }
    }

    /** Flags by name are the constants of their class, as a caller writes them. */
    private static int flags(Class<?> kind, Object given) {
        if (!(given instanceof List)) {
            return narrower(given);
        }
        int flags = 0;
        for (Object name : list(given)) {
            try {
                flags |= kind.getField(name.toString().toUpperCase()).getInt(null);
            } catch (ReflectiveOperationException why) {
                throw new Unsupported("no flag " + name);
            }
        }
        return flags;
    }

    @SuppressWarnings("unchecked")
    private static Map<String, Object> fields(Object value) {
        return (Map<String, Object>) value;
    }

    @SuppressWarnings("unchecked")
    private static List<Object> list(Object value) {
        return (List<Object>) value;
    }

    // What is answered

    private static Map<String, Object> one(String name, Object value) {
        Map<String, Object> found = new LinkedHashMap<>();
        found.put(name, value);
        return found;
    }

    private static Object errorOf(ClientException why) {
        String kind = why.getClass().getSimpleName();
        String name = kind.substring(0, kind.length() - "Exception".length());
        Map<String, Object> found = one("name", name);
        found.put("sent", why.mayHaveSent());
        if (why instanceof InvalidValueException it) {
            found.put("field", it.field());
        } else if (why instanceof ReplyLostException it) {
            found.put("told", it.told());
        } else if (why instanceof EventsFailedException it) {
            found.put("results", shownResults(it.results()));
        }
        return found;
    }

    private static Object said(Map<String, Object> line, Answer answer) {
        if (line.get("require_ok") != null) {
            answer.requireOk();
        }
        if (answer instanceof Answer.Registered it) {
            return one("session", it.session().toString());
        }
        if (answer instanceof Answer.AccountResults it) {
            return one("results", shownResults(it.results()));
        }
        if (answer instanceof Answer.TransferResults it) {
            return one("results", shownResults(it.results()));
        }
        if (answer instanceof Answer.Accounts it) {
            return one("records", it.accounts().stream().map(ConformanceRunner::shown).toList());
        }
        Answer.Transfers found = (Answer.Transfers) answer;
        return one("records", found.transfers().stream().map(ConformanceRunner::shown).toList());
    }

    private static Object shownResults(List<? extends EventResult<?>> results) {
        List<Object> found = new ArrayList<>();
        for (EventResult<?> it : results) {
            Map<String, Object> result = one("index", it.index());
            result.put("result", it.result().label());
            found.add(result);
        }
        return found;
    }

    private static Map<String, Object> shown(Saved saved) {
        Map<String, Object> found = one("client", saved.client().toString());
        found.put("session", saved.session().toString());
        found.put("number", String.valueOf(saved.number()));
        found.put("pending", saved.pending());
        return found;
    }

    private static Object shown(Request asked) {
        Map<String, Object> found = one("client", asked.client().toString());
        found.put("session", asked.session().toString());
        found.put("number", String.valueOf(asked.number()));
        found.put("operation", asked.operation().label());
        List<Object> items = new ArrayList<>();
        asked.accounts().forEach(it -> items.add(shown(it)));
        asked.transfers().forEach(it -> items.add(shown(it)));
        asked.ids().forEach(it -> items.add(it.toString()));
        found.put("items", items);
        return found;
    }

    private static Map<String, Object> shown(Account it) {
        Map<String, Object> found = one("id", it.id().toString());
        found.put("debits_pending", it.debitsPending().toString());
        found.put("debits_posted", it.debitsPosted().toString());
        found.put("credits_pending", it.creditsPending().toString());
        found.put("credits_posted", it.creditsPosted().toString());
        found.put("user_data_128", it.userData128().toString());
        found.put("user_data_64", it.userData64().toString());
        found.put("user_data_32", String.valueOf(it.userData32()));
        found.put("reserved", String.valueOf(it.reserved()));
        found.put("ledger", String.valueOf(it.ledger()));
        found.put("code", String.valueOf(it.code()));
        found.put("flags", shownFlags(AccountFlags.class, it.flags(), it.flagNames()));
        found.put("timestamp", it.timestamp().toString());
        return found;
    }

    private static Map<String, Object> shown(Transfer it) {
        Map<String, Object> found = one("id", it.id().toString());
        found.put("debit_account_id", it.debitAccountId().toString());
        found.put("credit_account_id", it.creditAccountId().toString());
        found.put("amount", it.amount().toString());
        found.put("pending_id", it.pendingId().toString());
        found.put("user_data_128", it.userData128().toString());
        found.put("user_data_64", it.userData64().toString());
        found.put("user_data_32", String.valueOf(it.userData32()));
        found.put("timeout", String.valueOf(it.timeout()));
        found.put("ledger", String.valueOf(it.ledger()));
        found.put("code", String.valueOf(it.code()));
        found.put("flags", shownFlags(TransferFlags.class, it.flags(), it.flagNames()));
        found.put("timestamp", it.timestamp().toString());
        return found;
    }

    /** Their names, or the number if it has bits without a name. */
    private static Object shownFlags(Class<?> kind, int flags, List<String> names) {
        return flags(kind, new ArrayList<Object>(names)) == flags ? names : String.valueOf(flags);
    }

    private static void write(StringBuilder text, Object value) throws IOException {
        if (value instanceof Map<?, ?> map) {
            String comma = "{";
            for (Map.Entry<?, ?> it : map.entrySet()) {
                write(text.append(comma), it.getKey());
                write(text.append(": "), it.getValue());
                comma = ", ";
            }
            text.append(map.isEmpty() ? "{}" : "}");
        } else if (value instanceof List<?> items) {
            String comma = "[";
            for (Object it : items) {
                write(text.append(comma), it);
                comma = ", ";
            }
            text.append(items.isEmpty() ? "[]" : "]");
        } else if (value instanceof String it) {
            text.append('"');
            for (char letter : it.toCharArray()) {
                if (letter == '"' || letter == '\\') {
                    text.append('\\').append(letter);
                } else if (letter < ' ' || letter > '~') {
                    text.append(String.format("\\u%04x", (int) letter));
                } else {
                    text.append(letter);
                }
            }
            text.append('"');
        } else {
            text.append(value); // a number, a truth value, null
        }
    }
}
