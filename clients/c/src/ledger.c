/* tbd as a child process: its start, what it says, and why it ended. */
#include "ledger.h"

#include <errno.h>
#include <fcntl.h>
#include <limits.h>
#include <poll.h>
#include <signal.h>
#include <spawn.h>
#include <sys/socket.h>
#include <sys/wait.h>
#include <unistd.h>

#define STARTS 5                         /* of a child that is killed before it serves */
#define LOCK_PAUSE (50 * TB_MILLISECOND) /* before a locked file is opened again */
#define PATIENCE (5 * TB_SECOND)         /* with a child whose input ended */
#define LINE_SIZE 256

extern char **environ;

struct tb_ledger {
    char *path, *program;
    tb_open_options options; /* without its texts */
    tb_moments moments;
    int64_t last_time;
    bool is_served; /* the file is there: a restart never makes another one */
    unsigned size;  /* MB of a file that is being read, or 0 */

    int said; /* the child's standard error, or -1 */
    char line[LINE_SIZE], fault[LINE_SIZE];
    size_t length; /* of the line that is being read */

    pthread_mutex_t lock; /* of what follows */
    pid_t child;          /* or 0 */
};

/* Making one */

static bool is_program(const char *path) { return !access(path, X_OK); }

/* A path in no folder that this process may leave before a restart. */
static char *absolute(const char *path) {
    char here[PATH_MAX], *made;
    if (*path == '/') return strdup(path);
    if (!getcwd(here, sizeof here) || asprintf(&made, "%s/%s", here, path) < 0) return NULL;
    return made;
}

/* The program of a name on PATH, or null. */
static char *on_path(const char *name) {
    const char *path = getenv("PATH");
    char *copy = strdup(path ? path : ""), *found = NULL;
    for (char *rest = copy, *one; !found && copy && (one = strsep(&rest, ":"));) {
        char *place;
        if (asprintf(&place, "%s/%s", *one ? one : ".", name) < 0) break;
        if (is_program(place)) found = absolute(place);
        free(place);
    }
    free(copy);
    return found;
}

static tb_code find(tb_ledger *it, const char *given, tb_client_error *error) {
    const char *name = given ? given : getenv("TBD");
    if (!name || !*name) name = "tbd";
    if (!strchr(name, '/'))
        it->program = on_path(name);
    else if (is_program(name))
        it->program = absolute(name);
    if (it->program) return TB_CLIENT_OK;
    return tb_fail(error, TB_CLIENT_CANNOT_START, false,
        "%.80s was not found: install the package telovamish, or give its path by `program` or the "
        "variable TBD",
        name);
}

static tb_code tested(const tb_open_options *options, tb_client_error *error) {
    if (options->clients_max < 1 || options->clients_max > TB_CLIENTS_MAX)
        return tb_invalid(error, "clients_max", "must be 1 to %d", TB_CLIENTS_MAX);
    if (options->profile != 1 && options->profile != 2)
        return tb_invalid(error, "profile", "must be 1 or 2");
    if (options->lock_timeout < 0) return tb_invalid(error, "lock_timeout", "must be 0 at least");
    return TB_CLIENT_OK;
}

tb_code tb_ledger_new(
    const char *path, const tb_open_options *options, tb_ledger **ledger, tb_client_error *error) {
    *ledger = NULL;
    if (!*path) return tb_invalid(error, "path", "must not be empty");
    tb_code code = tested(options, error);
    tb_ledger *it = code ? NULL : calloc(1, sizeof *it);
    if (!it) return code ? code : tb_no_memory(error, false);
    it->said = -1;
    it->options = *options;
    it->moments = (tb_moments){tb_wall_now(), tb_now()};
    pthread_mutex_init(&it->lock, NULL);
    it->path = absolute(path);
    code = it->path ? find(it, options->program, error) : tb_fail_file(error, path);
    if (code) {
        tb_ledger_free(it);
        return code;
    }
    *ledger = it;
    return TB_CLIENT_OK;
}

int64_t tb_ledger_moment(tb_ledger *it) { return tb_moments_next(&it->moments); }

/* What it says */

static void report(const tb_ledger *it, const char *line) {
    if (it->options.report)
        it->options.report(it->options.context, line);
    else
        fprintf(stderr, "%s\n", line);
}

static void progress(tb_ledger *it, unsigned done, unsigned size) {
    if ((done < size || it->size) && it->options.progress)
        it->options.progress(it->options.context, done, size);
    it->size = done < size ? size : 0;
}

static bool begins(const char *line, const char *with) {
    return !strncmp(line, with, strlen(with));
}

/* Takes a line. Whether it says that the child serves. */
static bool heard(tb_ledger *it, const char *line) {
    unsigned done, size;
    unsigned long long commit;
    long long last;
    const char *comma = strrchr(line, ',');
    if (begins(line, "tbd: reading ") && comma &&
        sscanf(comma, ", %u of %u MB", &done, &size) == 2) {
        progress(it, done, size);
        return false;
    }
    bool is_ready = sscanf(line, "tbd: ready: commit %llu, time %lld", &commit, &last) == 2;
    progress(it, it->size, it->size);
    if (is_ready) {
        tb_moments_go_on(&it->moments, last);
        it->last_time = last;
        it->is_served = true;
    } else if (begins(line, "tbd: made ") || begins(line, "tbd: copied ") ||
        begins(line, "tbd: cut ") || begins(line, "tbd: reading ")) {
        report(it, line);
    } else if (*line) {
        snprintf(it->fault, sizeof it->fault, "%s", begins(line, "tbd: ") ? line + 5 : line);
    }
    return is_ready;
}

/* Reads what the child says until it serves, or ends: TB_IO_BROKEN. */
static tb_io listen_to(tb_ledger *it, const tb_waits *waits, char *why) {
    for (char byte;;) {
        ssize_t count = read(it->said, &byte, 1);
        if (count < 0 && errno == EINTR) continue;
        if (count < 0 && errno == EAGAIN) {
            tb_io io = tb_wait_for(waits, it->said, POLLIN, why);
            if (io) return io;
            continue;
        }
        bool is_end = count <= 0;
        if (!is_end && byte != '\n') {
            if (it->length + 1 < sizeof it->line) it->line[it->length++] = byte;
            continue;
        }
        it->line[it->length] = 0;
        it->length = 0;
        bool is_ready = heard(it, it->line);
        if (is_end) return TB_IO_BROKEN;
        if (is_ready) return TB_IO_DONE;
    }
}

/* Starting it */

static void close_both(const int *files) {
    close(files[0]);
    close(files[1]);
}

/* The child's end of the sockets is its input and output. Ctrl-C at a terminal goes to all
 * processes of a session: the child has one of its own. */
static int spawned(tb_ledger *it, int end, int said) {
    char clients_max[12], profile[12];
    snprintf(clients_max, sizeof clients_max, "%d", it->options.clients_max);
    snprintf(profile, sizeof profile, "%d", it->options.profile);
    char *words[10] = {it->program, "run", it->path, clients_max, profile, "--progress"};
    size_t count = 6;
    if (it->options.existing || it->is_served) words[count++] = "--existing";
    if (it->options.drop_torn) words[count++] = "--drop-torn";
    posix_spawn_file_actions_t files;
    posix_spawnattr_t how;
    posix_spawn_file_actions_init(&files);
    posix_spawn_file_actions_adddup2(&files, end, 0);
    posix_spawn_file_actions_adddup2(&files, end, 1);
    posix_spawn_file_actions_adddup2(&files, said, 2);
    posix_spawnattr_init(&how);
    posix_spawnattr_setflags(&how, POSIX_SPAWN_SETSID);
    pthread_mutex_lock(&it->lock);
    int fault = posix_spawn(&it->child, it->program, &files, &how, words, environ);
    if (fault) it->child = 0;
    pthread_mutex_unlock(&it->lock);
    posix_spawnattr_destroy(&how);
    posix_spawn_file_actions_destroy(&files);
    return fault;
}

static tb_code started(tb_ledger *it, tb_connection *connection, tb_client_error *error) {
    int ends[2], said[2];
    if (socketpair(AF_UNIX, SOCK_STREAM | SOCK_CLOEXEC, 0, ends))
        return tb_fail_file(error, "socketpair");
    if (pipe2(said, O_CLOEXEC)) {
        close_both(ends);
        return tb_fail_file(error, "pipe");
    }
    int fault = spawned(it, ends[1], said[1]);
    close(ends[1]);
    close(said[1]);
    if (fault) {
        close(ends[0]);
        close(said[0]);
        return tb_fail(error, TB_CLIENT_CANNOT_START, false, "%.120s does not start: %s",
            it->program, strerror(fault));
    }
    fcntl(ends[0], F_SETFL, O_NONBLOCK);
    fcntl(said[0], F_SETFL, O_NONBLOCK);
    *connection = (tb_connection){.fd = ends[0]};
    it->said = said[0];
    it->fault[0] = 0;
    it->length = 0;
    return TB_CLIENT_OK;
}

/* Waits until the child that was started serves. */
static tb_code ready(
    tb_ledger *it, tb_connection *connection, const tb_waits *waits, tb_client_error *error) {
    char why[TB_TEXT];
    tb_io io = listen_to(it, waits, why);
    if (!io) return TB_CLIENT_OK;
    if (io == TB_IO_BROKEN) return tb_ledger_lost(it, connection, false, error);
    tb_ledger_kill(it);
    tb_ledger_lost(it, connection, false, NULL);
    return io == TB_IO_LATE
        ? tb_fail(error, TB_CLIENT_CANCELLED, false, "the limit ended while the file was read")
        : tb_fail(error, TB_CLIENT_CLOSED, false, "it was closed: nothing of this call was sent");
}

tb_code tb_ledger_serve(
    tb_ledger *it, tb_connection *connection, const tb_waits *waits, tb_client_error *error) {
    char why[TB_TEXT];
    int64_t deadline = tb_after(tb_now(), it->options.lock_timeout);
    while (connection->fd < 0) {
        tb_code code = started(it, connection, error);
        if (!code) code = ready(it, connection, waits, error);
        if (code != TB_CLIENT_LOCKED || tb_now() >= deadline) return code;
        tb_waits rest = *waits; /* the child of a program that was killed ends a moment after it */
        rest.deadline = tb_after(tb_now(), LOCK_PAUSE);
        if (tb_wait_for(&rest, -1, 0, why) != TB_IO_LATE || tb_now() >= waits->deadline)
            return code;
    }
    return TB_CLIENT_OK;
}

/* Refuses a ledger whose time is far ahead: what is pending would expire at once. */
static tb_code tested_time(const tb_ledger *it, tb_client_error *error) {
    int64_t ahead = it->last_time - tb_wall_now();
    if (it->options.ahead_max < 0 || ahead <= it->options.ahead_max) return TB_CLIENT_OK;
    return tb_fail(error, TB_CLIENT_CLOCK_JUMPED, false,
        "the ledger's last time is %lld seconds ahead of this computer's clock",
        (long long)(ahead / TB_SECOND));
}

tb_code tb_ledger_open(
    tb_ledger *it, tb_connection *connection, const tb_waits *waits, tb_client_error *error) {
    tb_code code = TB_CLIENT_REPLY_LOST;
    for (int left = STARTS; left > 0 && code == TB_CLIENT_REPLY_LOST; left--)
        code = tb_ledger_serve(it, connection, waits, error);
    if (code == TB_CLIENT_REPLY_LOST)
        return tb_fail(error, TB_CLIENT_CANNOT_START, false,
            "the program was killed, or had no memory, each of %d times", STARTS);
    return code ? code : tested_time(it, error);
}

/* Its end */

void tb_ledger_kill(tb_ledger *it) {
    pthread_mutex_lock(&it->lock);
    if (it->child) kill(it->child, SIGKILL);
    pthread_mutex_unlock(&it->lock);
}

/* Waits for the child's end after its input's. Its status for waitpid, or -1. */
static int ended(tb_ledger *it) {
    char why[TB_TEXT];
    tb_waits waits = {tb_after(tb_now(), PATIENCE), {-1, -1}};
    tb_io io;
    while (!(io = listen_to(it, &waits, why)))
        ;
    if (io != TB_IO_BROKEN) tb_ledger_kill(it);
    int status = -1;
    while (waitpid(it->child, &status, 0) < 0 && errno == EINTR)
        ;
    pthread_mutex_lock(&it->lock);
    it->child = 0;
    pthread_mutex_unlock(&it->lock);
    close(it->said);
    it->said = -1;
    return status;
}

tb_code tb_ledger_lost(
    tb_ledger *it, tb_connection *connection, bool sent, tb_client_error *error) {
    tb_connection_close(connection);
    int status = ended(it);
    if (!WIFEXITED(status) || !strcmp(it->fault, "NoMemory"))
        return tb_fail(
            error, TB_CLIENT_REPLY_LOST, true, "the program was killed, or had no memory");
    int64_t owner = 0;
    tb_code code = TB_CLIENT_PROGRAM_ENDED;
    if (begins(it->fault, "Locked")) {
        owner = tb_owner_of(it->path);
        code = tb_fail(error, TB_CLIENT_LOCKED, false, "the file is open elsewhere by process %lld",
            (long long)owner);
    } else {
        tb_fail(
            error, code, sent, "tbd ended with status %d: %.100s", WEXITSTATUS(status), it->fault);
    }
    if (!error) return code;
    error->status = (uint8_t)WEXITSTATUS(status);
    error->owner = owner;
    size_t length = strcspn(it->fault, ": ");
    snprintf(error->told, sizeof error->told, "%.*s", (int)length, it->fault);
    return code;
}

void tb_ledger_end(tb_ledger *it, tb_connection *connection) {
    if (!it->child) return;
    tb_connection_close(connection);
    ended(it);
}

void tb_ledger_free(tb_ledger *it) {
    if (!it) return;
    pthread_mutex_destroy(&it->lock);
    free(it->path);
    free(it->program);
    free(it);
}
