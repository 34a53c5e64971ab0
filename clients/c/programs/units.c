/* The parts of the client that the conformance kit does not reach one by one: values from the
 * documentation, or worked out by hand. */
#include "../src/ledger.h"
#include "../src/shared.h"
#include "values.h"

static int passed, failed;

static void holds(bool it, const char *what) {
    if (it) {
        passed++;
    } else {
        failed++;
        printf("FAILED: %s\n", what);
    }
}

#define HOLDS(it) holds(it, #it)

static void numbers(void) {
    char digits[TB_DIGITS];
    tb_u128 number;
    static const char most[] = "340282366920938463463374607431768211455"; /* 2^128 - 1 */
    HOLDS(!strcmp(tb_u128_text(tb_u128_of(0), digits), "0"));
    HOLDS(!strcmp(tb_u128_text(tb_amount_max(), digits), most));
    HOLDS(tb_u128_read(most, 128, &number) && tb_u128_equal(number, tb_amount_max()));
    HOLDS(!tb_u128_read("340282366920938463463374607431768211456", 128, &number));
    HOLDS(tb_u128_read("65535", 16, &number) && number.low == 65535);
    HOLDS(!tb_u128_read("65536", 16, &number));
    static const char *const wrong[] = {"", "-1", "+1", " 1", "1 ", "0x1", "1.0"};
    for (size_t at = 0; at < sizeof wrong / sizeof *wrong; at++)
        holds(!tb_u128_read(wrong[at], 128, &number), wrong[at]);
}

static void moments(void) {
    int64_t now = tb_wall_now(), ahead = now + 100 * TB_SECOND, behind = now - 100 * TB_SECOND;
    tb_moments it = {now, tb_now()};
    tb_moments_go_on(&it, ahead);
    HOLDS(tb_moments_next(&it) == ahead); /* the clock is behind the ledger: they never fall */
    tb_moments_go_on(&it, now);
    HOLDS(tb_moments_next(&it) == ahead);
    it = (tb_moments){behind, tb_now()}; /* the clock was set ahead: they rise as time goes by */
    int64_t first = tb_moments_next(&it);
    HOLDS(first >= behind && first < behind + 50 * TB_SECOND);
    it = (tb_moments){behind, tb_now() - 200 * TB_SECOND};
    HOLDS(tb_moments_next(&it) >= now && it.last <= tb_wall_now());
}

static bool is_json(const char *text) {
    json value;
    bool it = json_read(text, strlen(text), &value);
    if (it) json_free(&value);
    return it;
}

static void jsons(void) {
    static const char *const right[] = {"null", " [ ] ", "{}", "[1, -2.5e+3, \"x\", true]",
        "{\"a\": {\"b\": [null]}}", "\"\\u00e4\\ud834\\udd1e\\n\"", "0", "\"\""};
    static const char *const wrong[] = {"", "nul", "[1,]", "{\"a\"}", "{\"a\": 1,}", "01", "1.",
        "1e", "\"", "\"\\x\"", "\"\\ud834\"", "\"\\udd1e\"", "\"\n\"", "[] []", "// x", "-", "NaN"};
    for (size_t at = 0; at < sizeof right / sizeof *right; at++)
        holds(is_json(right[at]), right[at]);
    for (size_t at = 0; at < sizeof wrong / sizeof *wrong; at++)
        holds(!is_json(wrong[at]), wrong[at]);
    json value;
    HOLDS(json_read("\"\\u00e4\\ud834\\udd1e\"", 20, &value));
    HOLDS(json_is(&value, "\xc3\xa4\xf0\x9d\x84\x9e"));
    json_free(&value);
}

typedef struct place {
    const char *text, *host, *port; /* no host: it is no address */
} place;

static void addresses(void) {
    static const place places[] = {
        {"3001", "127.0.0.1", "3001"},
        {"ledger.example", "ledger.example", "3001"},
        {" 10.0.0.1:4000 ", "10.0.0.1", "4000"},
        {"[::1]:4000", "::1", "4000"},
        {"[::1]", "::1", "3001"},
        {"./ledger.sock", "./ledger.sock", ""},
        {":4000", "127.0.0.1", "4000"},
        {"", NULL, NULL},
        {"::1", NULL, NULL},
        {"[]", NULL, NULL},
        {"[[]]", NULL, NULL},
        {"host:0", NULL, NULL},
        {"host:65536", NULL, NULL},
        {"host:", NULL, NULL},
        {"host:1x", NULL, NULL},
        {"3001,", NULL, NULL},
    };
    for (size_t at = 0; at < sizeof places / sizeof *places; at++) {
        const place *it = &places[at];
        tb_address *found;
        size_t count;
        tb_client_error error;
        tb_code code = tb_addresses_read(it->text, &found, &count, &error);
        bool is_right = it->host ? !code && count == 1 && !strcmp(found->host, it->host) &&
                !strcmp(found->port, it->port)
                                 : code == TB_CLIENT_INVALID && !strcmp(error.field, "address");
        holds(is_right, it->text);
        if (!code) tb_addresses_free(found, count);
    }
    tb_address *found;
    size_t count;
    HOLDS(!tb_addresses_read("3001, ./a,b:2", &found, &count, NULL) && count == 3);
    HOLDS(found[1].is_unix && !found[2].is_unix && !strcmp(found[2].port, "2"));
    tb_addresses_free(found, count);
}

/* What is wrong with options is said before anything is sent. */
static void options(void) {
    tb_client_options given = TB_CLIENT_OPTIONS;
    tb_client_error error;
    tb_client *client;
    given.sessions = 65;
    HOLDS(tb_client_connect("3001", &given, &client, &error) == TB_CLIENT_INVALID && !client);
    HOLDS(!strcmp(error.field, "sessions") && !error.sent);
    given.sessions = 64;
    given.connect.ca = "/nonexistent";
    HOLDS(tb_client_connect("3001", &given, &client, &error) == TB_CLIENT_INVALID);
    HOLDS(!strcmp(error.field, "ca"));
    HOLDS(tb_client_connect("./x.sock", &given, &client, &error) == TB_CLIENT_INVALID);
    HOLDS(tb_client_connect("", NULL, &client, NULL) == TB_CLIENT_INVALID);
}

/* A client to which nobody listens. */
static void nobody(void) {
    tb_client *client;
    tb_client_error error;
    tb_u128 id = tb_u128_of(1);
    tb_account account;
    size_t found = 7;
    HOLDS(!tb_client_connect("/nonexistent/ledger.sock", NULL, &client, NULL));
    HOLDS(tb_client_lookup_accounts(client, &id, 1, &account, &found, 30 * TB_MILLISECOND,
              &error) == TB_CLIENT_CANCELLED);
    HOLDS(found == 0 && !error.sent);
    tb_client_close(client);
    HOLDS(tb_client_lookup_accounts(client, &id, 1, &account, &found, TB_NO_LIMIT, &error) ==
        TB_CLIENT_CLOSED);
    tb_client_free(client);
    tb_client_free(NULL);
}

static void codes(void) {
    for (int code = TB_CLIENT_OK; code <= TB_CLIENT_EVENTS_FAILED; code++)
        HOLDS(strcmp(tb_client_strerror((tb_code)code), "unknown"));
    HOLDS(!strcmp(tb_client_strerror((tb_code)99), "unknown"));
    HOLDS(!tb_client_require_ok(0, NULL) && tb_client_require_ok(1, NULL));
}

int main(void) {
    numbers();
    moments();
    jsons();
    addresses();
    options();
    nobody();
    codes();
    printf("%d passed, %d failed\n", passed, failed);
    return failed != 0;
}
