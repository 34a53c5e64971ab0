/* Makes transfers of 1 through a ledger in a file, one by one, and prints each that returned.
 *
 *     selling FILE FIRST LAST
 *
 * A transfer that is there already is one that an earlier run made. Then it waits for the end of
 * its input. */
#include <stdio.h>
#include <stdlib.h>
#include <tb_client.h>

static int fails(const tb_client_error *error) {
    fprintf(stderr, "%s: %s\n", tb_client_strerror(error->code), error->text);
    return 1;
}

static int made(tb_client *ledger, uint64_t id) {
    tb_client_error error;
    tb_event_result result;
    size_t failed;
    tb_transfer one = {.id = tb_u128_of(id),
        .debit_account_id = tb_u128_of(1),
        .credit_account_id = tb_u128_of(2),
        .amount = tb_u128_of(1),
        .ledger = 700,
        .code = 10};
    if (tb_client_create_transfers(ledger, &one, 1, &result, &failed, TB_NO_LIMIT, &error))
        return fails(&error);
    if (failed && result.result != TB_CREATE_TRANSFER_EXISTS) {
        fprintf(stderr, "%s\n", tb_create_transfer_result_name(result.result));
        return 1;
    }
    printf("%llu\n", (unsigned long long)id);
    return fflush(stdout) ? 1 : 0;
}

int main(int count, char **words) {
    tb_client *ledger;
    tb_client_error error;
    tb_event_result results[2];
    size_t failed;
    if (count != 4) return 2;
    tb_open_options options = TB_OPEN_OPTIONS;
    options.drop_torn = true; /* a file has 16 copies of torn bytes at most */
    if (tb_client_open(words[1], &options, &ledger, &error)) return fails(&error);
    tb_account accounts[2] = {{.id = tb_u128_of(1), .ledger = 700, .code = 10},
        {.id = tb_u128_of(2), .ledger = 700, .code = 10}};
    if (tb_client_create_accounts(ledger, accounts, 2, results, &failed, TB_NO_LIMIT, &error))
        return fails(&error);
    uint64_t last = strtoull(words[3], NULL, 10);
    for (uint64_t id = strtoull(words[2], NULL, 10); id <= last; id++)
        if (made(ledger, id)) return 1;
    while (getchar() != EOF)
        ;
    tb_client_free(ledger);
    return 0;
}
