/* How many transfers a second this client makes, and its CPU microseconds for each.
 *
 *     throughput sessions|shared|calls ADDRESS CALLERS ITEMS SECONDS
 *
 * sessions: threads, each with a client of its own and one list after another. shared: the same
 * over one client. calls: one thread that begins so many calls of one client at once.
 */
#include <sys/resource.h>

#include "values.h"

#define STACK ((size_t)64 << 10)

static const char *address;
static size_t callers, length;
static int64_t end;
static _Atomic uint64_t made;

static void sees(tb_code code, size_t failed, const tb_client_error *error) {
    if (!code && !failed) return;
    fprintf(
        stderr, "%s: %zu failed: %s\n", tb_client_strerror(code), failed, code ? error->text : "");
    exit(1);
}

static tb_client *connected(void) {
    tb_client_error error;
    tb_client *client;
    sees(tb_client_connect(address, NULL, &client, &error), 0, &error);
    return client;
}

static void fill(tb_transfer *list) {
    for (size_t at = 0; at < length; at++)
        list[at] = (tb_transfer){.id = tb_id(),
            .debit_account_id = tb_u128_of(1),
            .credit_account_id = tb_u128_of(2),
            .amount = tb_u128_of(1),
            .ledger = 700,
            .code = 10};
}

static void *sell(void *client) {
    tb_transfer *list = malloc(length * sizeof *list);
    tb_event_result *results = malloc(length * sizeof *results);
    tb_client_error error;
    size_t failed;
    while (tb_now() < end) {
        fill(list);
        sees(
            tb_client_create_transfers(client, list, length, results, &failed, TB_NO_LIMIT, &error),
            failed, &error);
        made += length;
    }
    free(list);
    free(results);
    return NULL;
}

/* Threads that sell, over one client if it is given. */
static void threads(tb_client *client) {
    pthread_t *all = calloc(callers, sizeof *all);
    tb_client **own = calloc(callers, sizeof *own);
    pthread_attr_t small;
    pthread_attr_init(&small);
    pthread_attr_setstacksize(&small, STACK);
    for (size_t at = 0; at < callers; at++) {
        own[at] = client ? client : connected();
        pthread_create(&all[at], &small, sell, own[at]);
    }
    for (size_t at = 0; at < callers; at++) pthread_join(all[at], NULL);
    for (size_t at = 0; at < callers && !client; at++) tb_client_free(own[at]);
    free(all);
    free(own);
}

static void sessions(void) { threads(NULL); }

static void shared(void) {
    tb_client *client = connected();
    threads(client);
    tb_client_free(client);
}

static void begin(tb_client *client, tb_call **call, tb_transfer *list) {
    tb_client_error error;
    fill(list);
    tb_code code =
        tb_client_begin(client, TB_OPERATION_CREATE_TRANSFERS, list, length, call, &error);
    sees(code, 0, &error);
}

static void finish(tb_call *call) {
    tb_client_error error;
    tb_answer answer;
    tb_code code = tb_call_wait(call, TB_NO_LIMIT, &answer, &error);
    sees(code, code ? 0 : answer.count, &error);
    tb_answer_free(&answer);
    tb_call_free(call);
    made += length;
}

static void calls(void) {
    tb_client *client = connected();
    tb_call **begun = calloc(callers, sizeof *begun);
    tb_transfer *list = malloc(length * sizeof *list);
    for (size_t at = 0; at < callers; at++) begin(client, &begun[at], list);
    for (size_t at = 0; tb_now() < end; at = (at + 1) % callers) {
        finish(begun[at]);
        begin(client, &begun[at], list);
    }
    for (size_t at = 0; at < callers; at++) finish(begun[at]);
    free(begun);
    free(list);
    tb_client_free(client);
}

static double microseconds(struct timeval it) { return it.tv_sec * 1e6 + it.tv_usec; }

int main(int count, char **words) {
    static const struct {
        const char *name;
        void (*run)(void);
    } kinds[] = {{"sessions", sessions}, {"shared", shared}, {"calls", calls}};
    struct rusage used;
    if (count != 6) return 2;
    address = words[2];
    callers = strtoul(words[3], NULL, 10);
    length = strtoul(words[4], NULL, 10);
    int64_t began = tb_now();
    end = began + atoi(words[5]) * TB_SECOND;
    for (size_t at = 0; at < 3; at++)
        if (!strcmp(words[1], kinds[at].name)) kinds[at].run();
    getrusage(RUSAGE_SELF, &used);
    double took = (double)(tb_now() - began) / 1e9;
    double cpu = microseconds(used.ru_utime) + microseconds(used.ru_stime);
    printf("%.0f %.3f\n", (double)made / took, made ? cpu / (double)made : 0.0);
    return made == 0;
}
