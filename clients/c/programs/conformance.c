/* The runner of this client for the conformance kit: a JSON line in, a JSON line out
 * (clients/conformance/PROTOCOL.md). */
#include "values.h"

/* What the kit named */

enum kind { TRANSPORT, SESSION, SHARED, BEGUN };

typedef struct named {
    enum kind kind;
    char *name;
    void *object;
    struct named *next;
} named;

static pthread_mutex_t lock = PTHREAD_MUTEX_INITIALIZER; /* calls may go on at once */
static named *all;

static named *find(enum kind kind, const char *name) {
    named *at = all;
    while (at && (at->kind != kind || strcmp(at->name, name))) at = at->next;
    return at;
}

/* What has the name that this field of a line gives. */
static void *get(enum kind kind, const json *line, const char *field) {
    pthread_mutex_lock(&lock);
    named *found = find(kind, text_of(json_get(line, field)));
    pthread_mutex_unlock(&lock);
    if (!found) unknown = "no such name";
    return found ? found->object : NULL;
}

/* Names an object. One that had the name is leaked: the kit means the new one from now on. */
static void keep(enum kind kind, const json *line, const char *field, void *object) {
    pthread_mutex_lock(&lock);
    named *made = malloc(sizeof *made);
    *made = (named){kind, strdup(text_of(json_get(line, field))), object, all};
    all = made;
    pthread_mutex_unlock(&lock);
}

/* Answers */

static void ok(FILE *out, const char *value) { fprintf(out, "{\"ok\": %s}", value); }

/* Ends an answer whose value stands behind its beginning. */
static void begin_ok(FILE *out) { fputs("{\"ok\": ", out); }

static void end_ok(FILE *out) { fputc('}', out); }

static void done(FILE *out, tb_code code, const tb_client_error *error) {
    if (code)
        write_error(out, error, NULL);
    else
        ok(out, "null");
}

/* What a call returned, and what `require_ok` says of it. Frees the answer. */
static void said(
    FILE *out, const json *line, tb_code code, tb_answer *answer, tb_client_error *error) {
    const json *required = json_get(line, "require_ok");
    bool is_create = answer->operation == TB_OPERATION_CREATE_ACCOUNTS ||
        answer->operation == TB_OPERATION_CREATE_TRANSFERS;
    if (!code && is_create && required && required->kind == JSON_TRUE)
        code = tb_client_require_ok(answer->count, error);
    if (code) {
        write_error(out, error, answer);
    } else {
        begin_ok(out);
        write_answer(out, answer);
        end_ok(out);
    }
    tb_answer_free(answer);
}

/* The limit of a call: the caller's own if it has one. */
static int64_t within(const json *line) {
    const json *given = json_get(line, "within");
    return given ? nanoseconds_of(given) : TB_NO_LIMIT;
}

/* Transports */

static void hello(FILE *out, const json *line) {
    (void)line;
    ok(out,
        "{\"protocol\": 1, \"client\": \"tb_client\", \"language\": \"C11\", \"features\": "
        "[\"unix\", \"tcp\", \"addresses\", \"tls\", \"parallel\", \"cancel\", \"shared\"]}");
}

/* A call of a shared client that goes on. */
typedef struct begun {
    tb_call *call;
    tb_code code;
    tb_client_error error;
    int64_t limit;
    json line;
    pthread_t thread;
    char *said;
    size_t length;
} begun;

static void *freed(void *client) {
    tb_client_free(client);
    return NULL;
}

/* Forgets an object. A client's request that is in flight has no reply any more: it is freed by
 * another thread, when its time is over. */
static void forget(named *it) {
    pthread_t thread;
    begun *call = it->object;
    if (it->kind == BEGUN && call->call) tb_call_leave(call->call);
    if (it->kind == TRANSPORT) tb_transport_close(it->object);
    if (it->kind == SHARED && !pthread_create(&thread, NULL, freed, it->object))
        pthread_detach(thread);
}

static void reset(FILE *out, const json *line) {
    (void)line;
    pthread_mutex_lock(&lock);
    named *left = all;
    all = NULL;
    pthread_mutex_unlock(&lock);
    for (enum kind kind = BEGUN;; kind--) {
        for (named *at = left; at; at = at->next)
            if (at->kind == kind) forget(at);
        if (kind == TRANSPORT) break;
    }
    ok(out, "null");
}

/* The addresses of a line as one text. Free it. */
static char *addresses_of(const json *line) {
    const json *given = json_get(line, "addresses");
    char *text = NULL;
    size_t length = 0;
    FILE *out = open_memstream(&text, &length);
    for (size_t at = 0; given && at < given->count; at++) {
        const json *one = &given->items[at], *port = json_get(one, "port");
        if (at) fputc(',', out);
        if (json_get(one, "unix"))
            fputs(text_of(json_get(one, "unix")), out);
        else
            fprintf(out, "%s:%s", text_of(json_get(one, "host")), port ? port->text : "");
    }
    fclose(out);
    return text;
}

static tb_connect_options connecting(const json *line) {
    tb_connect_options options = TB_CONNECT_OPTIONS;
    const json *timeout = json_get(line, "timeout"), *tls = json_get(line, "tls");
    if (timeout) options.timeout = nanoseconds_of(timeout);
    if (!tls || tls->kind != JSON_OBJECT) return options;
    options.ca = text_of(json_get(tls, "ca"));
    if (json_get(tls, "cert")) options.certificate = text_of(json_get(tls, "cert"));
    if (json_get(tls, "key")) options.key = text_of(json_get(tls, "key"));
    return options;
}

static void connect_to(FILE *out, const json *line) {
    tb_client_error error;
    tb_transport *transport;
    tb_connect_options options = connecting(line);
    if (never) return;
    char *addresses = addresses_of(line);
    tb_code code = tb_transport_new(addresses, &options, &transport, &error);
    free(addresses);
    if (!code) keep(TRANSPORT, line, "transport", transport);
    done(out, code, &error);
}

static void share(FILE *out, const json *line) {
    tb_client_error error;
    tb_client *client;
    tb_client_options options = TB_CLIENT_OPTIONS;
    options.connect = connecting(line);
    if (json_get(line, "sessions")) options.sessions = int_of(json_get(line, "sessions"));
    if (never) return;
    char *addresses = addresses_of(line);
    tb_code code = tb_client_connect(addresses, &options, &client, &error);
    free(addresses);
    if (!code) keep(SHARED, line, "shared", client);
    done(out, code, &error);
}

/* Sessions */

/* The options of a session, whose client is in `id`. */
static tb_session_options options_of(const json *line, tb_u128 *id) {
    tb_session_options options = TB_SESSION_OPTIONS;
    const json *client = json_get(line, "client"), *attempts = json_get(line, "attempts"),
               *pause = json_get(line, "pause");
    if (client) {
        *id = integer_of(client, 128);
        options.client = id;
    }
    if (attempts) options.attempts = int_of(attempts);
    if (pause) options.pause = nanoseconds_of(pause);
    return options;
}

static void write_session(FILE *out, tb_session *session) {
    tb_saved saved;
    tb_session_saved(session, &saved, NULL);
    begin_ok(out);
    write_saved(out, &saved);
    end_ok(out);
    tb_saved_free(&saved);
}

/* Makes a session, which is registered if the line says so. */
static void make_session(FILE *out, const json *line) {
    tb_client_error error;
    tb_session *session;
    tb_answer answer;
    tb_u128 id;
    bool registers = json_is(json_get(line, "do"), "register");
    tb_transport *transport = get(TRANSPORT, line, "transport");
    tb_session_options options = options_of(line, &id);
    int64_t limit = within(line);
    if (never || unknown) return;
    tb_code code = tb_session_new(transport, &options, &session, &error);
    if (!code && registers)
        code = tb_session_ask(session, TB_OPERATION_REGISTER, NULL, 0, limit, &answer, &error);
    if (code) {
        write_error(out, &error, NULL);
        tb_session_free(session);
        return;
    }
    keep(SESSION, line, "session", session);
    fputs("{\"ok\": {\"client\": ", out);
    write_number(out, tb_session_client(session));
    if (registers) {
        fputs(", \"session\": ", out);
        write_number(out, tb_u128_of(answer.session));
    }
    fputs("}}", out);
}

static tb_saved saved_of(const json *given) {
    const char *hex = text_of(json_get(given, "pending"));
    size_t length = strlen(hex) / 2;
    uint8_t *bytes = malloc(length + 1);
    for (size_t at = 0; at < length; at++) {
        unsigned byte = 0;
        if (sscanf(hex + 2 * at, "%2x", &byte) != 1) never = "it is no hex";
        bytes[at] = (uint8_t)byte;
    }
    return (tb_saved){integer_of(json_get(given, "client"), 128),
        integer_of(json_get(given, "session"), 64).low,
        (uint32_t)integer_of(json_get(given, "number"), 32).low, bytes, length};
}

/* Goes on with a file, or with what was saved. */
static void go_on(FILE *out, const json *line) {
    tb_client_error error;
    tb_session *session;
    tb_u128 id;
    tb_transport *transport = get(TRANSPORT, line, "transport");
    tb_session_options options = options_of(line, &id);
    const json *path = json_get(line, "path");
    tb_saved saved = path ? (tb_saved){0} : saved_of(json_get(line, "saved"));
    if (never || unknown) return;
    tb_code code = path ? tb_session_load(transport, text_of(path), &options, &session, &error)
                        : tb_session_resume(transport, &saved, &options, &session, &error);
    tb_saved_free(&saved);
    if (code) {
        write_error(out, &error, NULL);
        return;
    }
    keep(SESSION, line, "session", session);
    write_session(out, session);
}

static void prepare(FILE *out, const json *line) {
    tb_client_error error;
    tb_session *session = get(SESSION, line, "session");
    enum tb_operation operation = operation_of(json_get(line, "operation"));
    if (never || unknown) return;
    items given = items_of(line, operation);
    if (!never && !unknown) {
        tb_code code = tb_session_prepare(session, operation, given.rows, given.count, &error);
        const json *changes = json_get(line, "changes");
        if (changes && changes->kind == JSON_TRUE && given.count)
            memset(given.rows, 0xff, given.count * TB_ID_SIZE);
        done(out, code, &error);
    }
    free(given.rows);
}

static void retry(FILE *out, const json *line) {
    tb_client_error error;
    tb_answer answer;
    tb_session *session = get(SESSION, line, "session");
    int64_t limit = within(line);
    if (never || unknown) return;
    said(out, line, tb_session_retry(session, limit, &answer, &error), &answer, &error);
}

/* Begins a call of a shared client. */
static void begin_call(begun *it, tb_client *client) {
    enum tb_operation operation = operation_of(json_get(&it->line, "operation"));
    it->limit = within(&it->line);
    if (never || unknown) return;
    items given = items_of(&it->line, operation);
    if (!never && !unknown)
        it->code =
            tb_client_begin(client, operation, given.rows, given.count, &it->call, &it->error);
    free(given.rows);
}

/* Waits for it, and writes its answer. */
static void end_call(FILE *out, begun *it) {
    tb_answer answer = {0};
    if (!it->code) it->code = tb_call_wait(it->call, it->limit, &answer, &it->error);
    said(out, &it->line, it->code, &answer, &it->error);
}

static void ask(FILE *out, const json *line) {
    tb_client_error error;
    tb_answer answer;
    if (json_get(line, "shared")) {
        begun it = {.line = *line};
        tb_client *client = get(SHARED, line, "shared");
        if (!unknown) begin_call(&it, client);
        if (never || unknown) return;
        end_call(out, &it);
        tb_call_free(it.call);
        return;
    }
    tb_session *session = get(SESSION, line, "session");
    enum tb_operation operation = operation_of(json_get(line, "operation"));
    int64_t limit = within(line);
    if (never || unknown) return;
    items given = items_of(line, operation);
    if (!never && !unknown) {
        tb_code code =
            tb_session_ask(session, operation, given.rows, given.count, limit, &answer, &error);
        said(out, line, code, &answer, &error);
    }
    free(given.rows);
}

static void saved(FILE *out, const json *line) {
    tb_session *session = get(SESSION, line, "session");
    if (session) write_session(out, session);
}

static void save(FILE *out, const json *line) {
    tb_client_error error;
    tb_session *session = get(SESSION, line, "session");
    if (session)
        done(out, tb_session_save(session, text_of(json_get(line, "path")), &error), &error);
}

static void in_doubt(FILE *out, const json *line) {
    tb_saved kept;
    tb_request request;
    tb_session *session = get(SESSION, line, "session");
    if (!session) return;
    tb_session_saved(session, &kept, NULL);
    begin_ok(out);
    if (!kept.length || tb_read_request(kept.pending, kept.length, &request))
        fputs("null", out);
    else
        write_request(out, &request);
    end_ok(out);
    tb_saved_free(&kept);
}

static void close_named(FILE *out, const json *line) {
    if (json_get(line, "shared")) {
        tb_client *client = get(SHARED, line, "shared");
        if (client) tb_client_close(client);
    } else if (json_get(line, "session")) {
        tb_session *session = get(SESSION, line, "session");
        if (session) tb_transport_close(tb_session_transport(session));
    } else {
        tb_transport *transport = get(TRANSPORT, line, "transport");
        if (transport) tb_transport_close(transport);
    }
    if (!unknown) ok(out, "null");
}

static void drop(FILE *out, const json *line) {
    pthread_mutex_lock(&lock);
    named *found = find(SESSION, text_of(json_get(line, "session")));
    if (found) found->name[0] = 0; /* forgotten, as by a crash */
    pthread_mutex_unlock(&lock);
    ok(out, "null");
}

/* Ids, and calls at once */

/* The random bytes that the kit gives, one draw after another. */
static void drawn(void *context, uint8_t *bytes) {
    const json **next = context;
    const char *hex = text_of((*next)++);
    for (int at = 0; at < 10; at++) {
        unsigned byte = 0;
        sscanf(hex + 2 * at, "%2x", &byte);
        bytes[at] = (uint8_t)byte;
    }
}

static void write_id(FILE *out, tb_u128 id, bool is_first) {
    if (!is_first) fputs(", ", out);
    write_number(out, id);
}

typedef struct making {
    size_t count;
    tb_u128 *ids;
} making;

static void *make_ids(void *given) {
    making *it = given;
    for (size_t at = 0; at < it->count; at++) it->ids[at] = tb_id();
    return NULL;
}

static void ids_of_now(FILE *out, const json *line) {
    const json *many = json_get(line, "count"), *at_once = json_get(line, "threads");
    size_t threads = at_once ? (size_t)int_of(at_once) : 1;
    size_t each = (many ? (size_t)int_of(many) : 1) / threads;
    tb_u128 *ids = calloc(threads * each, sizeof *ids);
    making *parts = calloc(threads, sizeof *parts);
    pthread_t *started = calloc(threads, sizeof *started);
    for (size_t at = 0; at < threads; at++) {
        parts[at] = (making){each, ids + at * each};
        pthread_create(&started[at], NULL, make_ids, &parts[at]);
    }
    for (size_t at = 0; at < threads; at++) pthread_join(started[at], NULL);
    for (size_t at = 0; at < threads * each; at++) write_id(out, ids[at], !at);
    free(ids);
    free(parts);
    free(started);
}

static void ids(FILE *out, const json *line) {
    const json *times = json_get(line, "times"), *random = json_get(line, "random");
    tb_ids maker = {{0, 0}};
    const json *next = random ? random->items : NULL;
    begin_ok(out);
    fputc('[', out);
    for (size_t at = 0; times && at < times->count; at++)
        write_id(
            out, tb_ids_next(&maker, strtoull(times->items[at].text, NULL, 10), drawn, &next), !at);
    if (!times) ids_of_now(out, line);
    fputc(']', out);
    end_ok(out);
}

static void answer(FILE *out, const json *line);

typedef struct together {
    const json *line;
    char *said;
    size_t length;
    pthread_t thread;
} together;

static void *answered(void *given) {
    together *it = given;
    FILE *out = open_memstream(&it->said, &it->length);
    answer(out, it->line);
    fclose(out);
    return NULL;
}

static void parallel(FILE *out, const json *line) {
    const json *calls = json_get(line, "calls");
    together *them = calloc(calls->count + 1, sizeof *them);
    for (size_t at = 0; at < calls->count; at++) {
        them[at].line = &calls->items[at];
        pthread_create(&them[at].thread, NULL, answered, &them[at]);
    }
    begin_ok(out);
    for (size_t at = 0; at < calls->count; at++) {
        pthread_join(them[at].thread, NULL);
        fprintf(out, "%s%s", at ? ", " : "[", them[at].said);
        free(them[at].said);
    }
    fputs(calls->count ? "]" : "[]", out);
    end_ok(out);
    free(them);
}

/* Shared clients */

static void *waited(void *given) {
    begun *it = given;
    FILE *out = open_memstream(&it->said, &it->length);
    end_call(out, it);
    fclose(out);
    return NULL;
}

/* Takes a line for a thread that outlives it. */
static json taken(const json *line) {
    json copy = *line;
    *(json *)line = (json){JSON_NULL, NULL, 0, NULL, NULL, 0};
    return copy;
}

static void begin(FILE *out, const json *line) {
    tb_client *client = get(SHARED, line, "shared");
    begun *it = calloc(1, sizeof *it);
    if (unknown) return;
    it->line = taken(line);
    begin_call(it, client);
    if (never || unknown) return;
    pthread_create(&it->thread, NULL, waited, it);
    keep(BEGUN, &it->line, "call", it);
    ok(out, "null");
}

static void end(FILE *out, const json *line) {
    begun *it = get(BEGUN, line, "call");
    if (!it) return;
    pthread_join(it->thread, NULL);
    fputs(it->said, out);
}

static void leave(FILE *out, const json *line) {
    begun *it = get(BEGUN, line, "call");
    if (!it) return;
    if (it->call) tb_call_leave(it->call);
    ok(out, "null");
}

/* Lines */

static const struct {
    const char *name;
    void (*make)(FILE *out, const json *line);
} CALLS[] = {
    {"hello", hello},
    {"reset", reset},
    {"connect", connect_to},
    {"open", make_session},
    {"register", make_session},
    {"load", go_on},
    {"resume", go_on},
    {"prepare", prepare},
    {"retry", retry},
    {"ask", ask},
    {"saved", saved},
    {"save", save},
    {"in_doubt", in_doubt},
    {"close", close_named},
    {"drop", drop},
    {"ids", ids},
    {"parallel", parallel},
    {"share", share},
    {"begin", begin},
    {"end", end},
    {"leave", leave},
};

static void answer(FILE *out, const json *line) {
    const json *wanted = json_get(line, "do");
    size_t at = 0, count = sizeof CALLS / sizeof *CALLS;
    never = unknown = NULL;
    while (at < count && !json_is(wanted, CALLS[at].name)) at++;
    if (at < count)
        CALLS[at].make(out, line);
    else
        unknown = "no such call";
    if (!never && !unknown) return;
    fprintf(out, "{\"%s\": ", never ? "unrepresentable" : "unsupported");
    write_text(out, never ? never : unknown);
    fputc('}', out);
}

int main(void) {
    char *text = NULL;
    size_t room = 0;
    ssize_t length;
    while ((length = getline(&text, &room, stdin)) > 0) {
        json line;
        if (!json_read(text, (size_t)length, &line)) return 1;
        answer(stdout, &line);
        fputc('\n', stdout);
        fflush(stdout);
        json_free(&line);
    }
    free(text);
    return 0;
}
