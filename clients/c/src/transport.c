/* A transport: one connection, used until it is lost, over which exchanges take turns. */
#include <errno.h>
#include <fcntl.h>
#include <poll.h>
#include <stdatomic.h>
#include <unistd.h>

#include "ledger.h"

#define FIRST_PAUSE (20 * TB_MILLISECOND) /* before the addresses are called again */
#define LAST_PAUSE (500 * TB_MILLISECOND)
#define MOMENT 8 /* bytes, before a request to a child */

struct tb_transport {
    tb_address *addresses;
    size_t count;
    int64_t timeout;
    SSL_CTX *tls;
    tb_ledger *ledger; /* of a file, in place of all above */

    pthread_mutex_t lock;
    pthread_cond_t freed;
    bool is_taken;    /* an exchange goes on, and has what follows */
    size_t at;        /* the address of the connection, or of the next one */
    bool *is_refused; /* by address: it refused this client in this exchange */
    char cause[TB_TEXT];
    tb_connection connection;

    int closed[2], ending[2]; /* pipes, whose reading ends can be read from then on */
    atomic_bool is_closed, is_ending;
};

/* A sending, and its ends: of the call, and of the sending itself. */
typedef struct sending {
    const uint8_t *frame;
    size_t length;
    int64_t limit, within;
    const tb_receiver *receiver;
    bool is_not_taken; /* the server reads its ledger, or refuses this client: not executed */
} sending;

static tb_code made_pipes(tb_transport *t, tb_client_error *error) {
    t->closed[0] = t->ending[0] = -1;
    if (pipe2(t->closed, O_CLOEXEC)) return tb_fail_file(error, "pipe");
    if (pipe2(t->ending, O_CLOEXEC)) return tb_fail_file(error, "pipe");
    return TB_CLIENT_OK;
}

static tb_code configured(tb_transport *t, const char *addresses, const tb_connect_options *options,
    tb_client_error *error) {
    tb_code code = tb_addresses_read(addresses, &t->addresses, &t->count, error);
    if (!code && options->timeout <= 0) code = tb_invalid(error, "timeout", "must be above 0");
    if (!code) code = tb_tls_new(options, &t->tls, error);
    for (size_t at = 0; !code && t->tls && at < t->count; at++)
        if (t->addresses[at].is_unix)
            code = tb_invalid(error, "ca", "TLS is for a host: %.80s", t->addresses[at].shown);
    if (!code) code = made_pipes(t, error);
    if (!code && !(t->is_refused = calloc(t->count, sizeof *t->is_refused)))
        code = tb_no_memory(error, false);
    t->timeout = options->timeout;
    return code;
}

static tb_transport *fresh(void) {
    tb_transport *t = calloc(1, sizeof *t);
    if (!t) return NULL;
    t->connection.fd = t->closed[0] = t->ending[0] = -1;
    pthread_mutex_init(&t->lock, NULL);
    tb_condition_init(&t->freed);
    return t;
}

enum tb_client_code tb_transport_new(const char *addresses, const tb_connect_options *options,
    tb_transport **transport, tb_client_error *error) {
    static const tb_connect_options defaults = TB_CONNECT_OPTIONS;
    tb_transport *t = fresh();
    *transport = NULL;
    if (!t) return tb_no_memory(error, false);
    tb_code code = configured(t, addresses, options ? options : &defaults, error);
    if (code)
        tb_transport_free(t);
    else
        *transport = t;
    return code;
}

static tb_waits waits_of(const tb_transport *t, int64_t deadline, bool connects) {
    return (tb_waits){deadline, {t->closed[0], connects ? t->ending[0] : -1}};
}

tb_code tb_transport_of_file(const char *path, const tb_open_options *options,
    tb_transport **transport, tb_client_error *error) {
    tb_transport *t = fresh();
    *transport = NULL;
    if (!t) return tb_no_memory(error, false);
    tb_code code = made_pipes(t, error);
    if (!code) code = tb_ledger_new(path, options, &t->ledger, error);
    if (!code) {
        tb_waits waits = waits_of(t, tb_after(tb_now(), options->limit), true);
        code = tb_ledger_open(t->ledger, &t->connection, &waits, error);
    }
    if (code)
        tb_transport_free(t);
    else
        *transport = t;
    return code;
}

/* Ends the connection, and the child at its other end. */
static void end_connection(tb_transport *t) {
    if (t->ledger)
        tb_ledger_end(t->ledger, &t->connection);
    else
        tb_connection_close(&t->connection);
}

void tb_transport_kill(tb_transport *t) {
    if (t->ledger) tb_ledger_kill(t->ledger);
}

static void closed_pipe(const int *files) {
    if (files[0] < 0) return;
    close(files[0]);
    close(files[1]);
}

void tb_transport_free(tb_transport *t) {
    if (!t) return;
    end_connection(t);
    tb_ledger_free(t->ledger);
    closed_pipe(t->closed);
    closed_pipe(t->ending);
    tb_addresses_free(t->addresses, t->count);
    SSL_CTX_free(t->tls);
    free(t->is_refused);
    pthread_cond_destroy(&t->freed);
    pthread_mutex_destroy(&t->lock);
    free(t);
}

/* Has a pipe's reading end be ready, once. */
static void wake(atomic_bool *is_set, const int *files) {
    if (atomic_exchange(is_set, true)) return;
    while (write(files[1], "", 1) < 0 && errno == EINTR)
        ;
}

void tb_transport_close(tb_transport *t) {
    pthread_mutex_lock(&t->lock);
    wake(&t->is_closed, t->closed);
    if (!t->is_taken) end_connection(t);
    pthread_cond_broadcast(&t->freed);
    pthread_mutex_unlock(&t->lock);
}

void tb_transport_connect_no_more(tb_transport *t) { wake(&t->is_ending, t->ending); }

static tb_code is_shut(tb_client_error *error) {
    return tb_fail(error, TB_CLIENT_CLOSED, false, "it was closed: nothing of this call was sent");
}

static tb_code is_cancelled(tb_client_error *error, bool sent) {
    return tb_fail(error, TB_CLIENT_CANCELLED, sent, "the call's limit ended it");
}

/* Waits until no other exchange goes on. */
static tb_code take(tb_transport *t, int64_t limit, tb_client_error *error) {
    tb_code code = TB_CLIENT_OK;
    pthread_mutex_lock(&t->lock);
    while (!t->is_closed && t->is_taken && tb_wait_until(&t->freed, &t->lock, limit))
        ;
    if (t->is_closed)
        code = is_shut(error);
    else if (t->is_taken)
        code = is_cancelled(error, false);
    else
        t->is_taken = true;
    pthread_mutex_unlock(&t->lock);
    return code;
}

static void give_back(tb_transport *t) {
    pthread_mutex_lock(&t->lock);
    t->is_taken = false;
    if (t->is_closed) end_connection(t);
    pthread_cond_signal(&t->freed);
    pthread_mutex_unlock(&t->lock);
}

static void to_next(tb_transport *t) { t->at = (t->at + 1) % t->count; }

/* Closes the connection. The next one goes to the next address. */
static void lose(tb_transport *t) {
    tb_connection_close(&t->connection);
    to_next(t);
}

/* Sleeps. Whether the moment did not come meanwhile. */
static bool rested(tb_transport *t, int64_t pause, int64_t deadline) {
    char why[TB_TEXT];
    int64_t end = tb_after(tb_now(), pause);
    tb_waits waits = waits_of(t, end < deadline ? end : deadline, true);
    return tb_wait_for(&waits, -1, 0, why) == TB_IO_LATE && end <= deadline;
}

/* Keeps why no reply came. The end of the time says less than a fault before it. */
static void keep_cause(tb_transport *t, tb_io io, const char *why) {
    if (*t->cause && io == TB_IO_LATE) return;
    snprintf(t->cause, sizeof t->cause, "%.60s: %.90s", t->addresses[t->at].shown, why);
}

/* Calls the addresses in turn, from the present one on, until one replies. Each gets a share of the
 * time that is left. `is_distrust` says whether at each one side does not trust the other. */
static bool called_each(tb_transport *t, int64_t within, bool *is_distrust) {
    char why[TB_TEXT];
    *is_distrust = true;
    for (size_t left = t->count; left > 0; left--, to_next(t)) {
        int64_t now = tb_now();
        tb_waits waits = waits_of(
            t, within == TB_NO_LIMIT ? within : now + (within - now) / (int64_t)left, true);
        tb_io io = tb_connection_open(&t->connection, &t->addresses[t->at], t->tls, &waits, why);
        if (!io) return true;
        keep_cause(t, io, why);
        *is_distrust = *is_distrust && (io == TB_IO_DISTRUST || io == TB_IO_REFUSED);
    }
    return false;
}

static tb_code not_connected(
    tb_transport *t, const sending *sent, bool final, tb_client_error *error) {
    if (t->is_closed || t->is_ending) return is_shut(error);
    if (!final && tb_now() >= sent->limit) return is_cancelled(error, false);
    tb_fail(error, TB_CLIENT_CANNOT_CONNECT, false, "no connection: %s", t->cause);
    if (error) error->final = final;
    return TB_CLIENT_CANNOT_CONNECT;
}

/* Has a connection: a new one if there is none, or if the server left it. */
static tb_code connected(tb_transport *t, const sending *sent, tb_client_error *error) {
    if (t->connection.fd >= 0 && tb_connection_is_left(&t->connection)) lose(t);
    for (int64_t pause = FIRST_PAUSE; t->connection.fd < 0; pause = tb_doubled(pause, LAST_PAUSE)) {
        bool is_distrust;
        if (called_each(t, sent->within, &is_distrust)) break;
        if (is_distrust || !rested(t, pause, sent->within))
            return not_connected(t, sent, is_distrust, error);
    }
    return TB_CLIENT_OK;
}

/* Reads what a server tells before it closes a connection: a line that is shorter than a header. */
static tb_code told(const uint8_t *bytes, size_t length, tb_client_error *error) {
    static const char mark[] = "tb_listen: ";
    size_t at = sizeof mark - 1, count = 0;
    char name[32];
    if (length < at || memcmp(bytes, mark, at)) return TB_CLIENT_OK;
    for (; at < length && bytes[at] != '\n' && count + 1 < sizeof name; at++)
        name[count++] = bytes[at] < ' ' || bytes[at] > '~' ? '?' : (char)bytes[at];
    name[count] = 0;
    bool is_busy = !strcmp(name, "Busy") || !strcmp(name, "TooManyConnections") ||
        !strcmp(name, "TooManySessions") || !strcmp(name, "TooManyRequests");
    tb_code code = is_busy ? TB_CLIENT_BUSY : TB_CLIENT_REPLY_LOST;
    tb_fail(error, code, true, "the server closed the connection: %s", name);
    if (error) snprintf(error->told, sizeof error->told, "%s", name);
    return code;
}

/* The error of an exchange that did not end in its reply. */
static tb_code failed(
    tb_transport *t, sending *sent, tb_io io, const char *why, tb_client_error *error) {
    bool is_refused = io == TB_IO_REFUSED && !t->connection.is_used;
    if (is_refused) {
        keep_cause(t, io, why);
        t->is_refused[t->at] = sent->is_not_taken = true;
    } else if (io == TB_IO_LATE && tb_now() >= sent->limit) {
        return is_cancelled(error, true);
    }
    return tb_fail(error, TB_CLIENT_REPLY_LOST, true, "no reply: %.100s%s%.90s", why,
        *t->cause ? ", after " : "", t->cause);
}

static tb_code bad_reply(tb_client_error *error, const char *why) {
    return tb_fail(error, TB_CLIENT_BAD_REPLY, true, "what came is no reply: %s", why);
}

/* Reads a reply behind its header. */
static tb_code read_body(tb_transport *t, sending *sent, const uint8_t *begun, size_t length,
    const tb_waits *waits, tb_client_error *error) {
    char why[TB_TEXT];
    size_t got;
    uint8_t *reply = malloc(TB_HEADER_SIZE + length);
    if (!reply) return tb_no_memory(error, true);
    memcpy(reply, begun, TB_HEADER_SIZE);
    tb_io io = tb_connection_read(&t->connection, reply + TB_HEADER_SIZE, length, &got, waits, why);
    tb_code code = TB_CLIENT_OK;
    if (io)
        code = failed(t, sent, io, why, error);
    else if (!sent->receiver->takes(sent->receiver->context, reply, TB_HEADER_SIZE + length))
        code = bad_reply(error, "it is another request's");
    free(reply);
    return code;
}

/* Takes the reply whose header this is. */
static tb_code take_reply(tb_transport *t, sending *sent, const uint8_t *bytes,
    const tb_waits *waits, tb_client_error *error) {
    const tb_receiver *receiver = sent->receiver;
    tb_reply_header header;
    memcpy(&header, bytes, sizeof header);
    uint32_t fault = tb_reply_header_fault(&header);
    if (fault) return bad_reply(error, tb_fault_name(fault));
    t->connection.is_used = true;
    if (header.length > 0) {
        if (!receiver->begins(receiver->context, bytes))
            return bad_reply(error, "it is another request's");
        return read_body(t, sent, bytes, header.length, waits, error);
    }
    return receiver->takes(receiver->context, bytes, TB_HEADER_SIZE)
        ? TB_CLIENT_OK
        : bad_reply(error, "it is another request's");
}

/* Sends the request over the connection, and takes its reply. */
static tb_code exchanged(tb_transport *t, sending *sent, tb_client_error *error) {
    char why[TB_TEXT], later[TB_TEXT];
    uint8_t header[TB_HEADER_SIZE];
    size_t got = 0;
    tb_waits waits = waits_of(t, sent->within, false);
    tb_io io = tb_connection_write(&t->connection, sent->frame, sent->length, &waits, why);
    if (!io) {
        io = tb_connection_read(&t->connection, header, sizeof header, &got, &waits, why);
        if (!io) return take_reply(t, sent, header, &waits, error);
    } else if (io == TB_IO_BROKEN) { /* what the server said before it closed the connection */
        if (tb_connection_read(&t->connection, header, sizeof header, &got, &waits, later) ==
            TB_IO_REFUSED)
            io = TB_IO_REFUSED;
    }
    tb_code code = told(header, got, error);
    if (!code) return failed(t, sent, io, why, error);
    if (error && !strcmp(error->told, "Starting")) {
        keep_cause(t, TB_IO_BROKEN, "Starting");
        sent->is_not_taken = true;
    }
    return code;
}

/* Sends once. */
static tb_code once(tb_transport *t, sending *sent, tb_client_error *error) {
    sent->is_not_taken = false;
    tb_code code = connected(t, sent, error);
    if (code) return code;
    code = exchanged(t, sent, error);
    if (code) lose(t);
    return code;
}

static bool are_all_refusing(const tb_transport *t) {
    for (size_t at = 0; at < t->count; at++)
        if (!t->is_refused[at]) return false;
    return true;
}

/* Sends until a server takes the request, and takes its reply. */
static tb_code sent_once(tb_transport *t, sending *sent, tb_client_error *error) {
    t->cause[0] = 0;
    memset(t->is_refused, 0, t->count * sizeof *t->is_refused);
    for (int64_t pause = FIRST_PAUSE;; pause = tb_doubled(pause, LAST_PAUSE)) {
        tb_code code = once(t, sent, error);
        if (!code || !sent->is_not_taken) return code;
        bool final = are_all_refusing(t);
        if (final || !rested(t, pause, sent->within)) return not_connected(t, sent, final, error);
    }
}

/* Sends a request with its moment to the child that serves the file, and takes its reply. */
static tb_code sent_to_child(tb_transport *t, sending *sent, tb_client_error *error) {
    tb_waits waits = waits_of(t, sent->within, true);
    tb_code code = tb_ledger_serve(t->ledger, &t->connection, &waits, error);
    if (code) return code;
    uint8_t *pair = malloc(MOMENT + sent->length);
    if (!pair) return tb_no_memory(error, false);
    uint64_t moment = (uint64_t)tb_ledger_moment(t->ledger);
    memcpy(pair, &moment, MOMENT);
    memcpy(pair + MOMENT, sent->frame, sent->length);
    sending timed = *sent;
    timed.frame = pair;
    timed.length += MOMENT;
    code = exchanged(t, &timed, error);
    free(pair);
    if (!code) return code;
    bool is_broken = code == TB_CLIENT_REPLY_LOST;
    if (!is_broken) tb_ledger_kill(t->ledger); /* what it says next is to no request */
    tb_code why = tb_ledger_lost(t->ledger, &t->connection, true, is_broken ? error : NULL);
    return is_broken ? why : code;
}

tb_code tb_transport_exchange(tb_transport *t, const uint8_t *frame, size_t length, int64_t limit,
    const tb_receiver *receiver, tb_client_error *error) {
    tb_code code = take(t, limit, error);
    if (code) return code;
    int64_t within = t->ledger ? limit : tb_after(tb_now(), t->timeout);
    sending sent = {frame, length, limit, limit < within ? limit : within, receiver, false};
    code = t->ledger ? sent_to_child(t, &sent, error) : sent_once(t, &sent, error);
    give_back(t);
    return code;
}
