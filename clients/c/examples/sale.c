/* Makes one sale, however often it is run: the transfer's id is kept with the sale.
 *
 *     sale ADDRESS
 */
#include <stdio.h>
#include <tb_client.h>

#define LIMIT (10 * TB_SECOND)

static int fails(const tb_client_error *error) {
    fprintf(stderr, "%s: %s\n", tb_client_strerror(error->code), error->text);
    if (error->sent) fputs("the request may have been executed: run this again\n", stderr);
    return 1;
}

int main(int count, char **words) {
    tb_client *ledger;
    tb_client_error error;
    if (count != 2 || tb_client_connect(words[1], NULL, &ledger, &error)) return 2;

    tb_account accounts[2] = {{.id = tb_u128_of(1), .ledger = 700, .code = 10},
        {.id = tb_u128_of(2), .ledger = 700, .code = 10}};
    tb_transfer sale = {.id = tb_u128_of(1001),
        .debit_account_id = tb_u128_of(1),
        .credit_account_id = tb_u128_of(2),
        .amount = tb_u128_of(10),
        .ledger = 700,
        .code = 10};
    tb_event_result results[2];
    size_t failed, found;

    if (tb_client_create_accounts(ledger, accounts, 2, results, &failed, LIMIT, &error))
        return fails(&error);
    if (tb_client_create_transfers(ledger, &sale, 1, results, &failed, LIMIT, &error))
        return fails(&error);
    if (failed) printf("the sale: %s\n", tb_create_transfer_result_name(results[0].result));
    if (tb_client_lookup_accounts(ledger, &accounts[1].id, 1, accounts, &found, LIMIT, &error))
        return fails(&error);
    printf("credits_posted %llu\n", (unsigned long long)accounts[0].credits_posted.low);
    tb_client_free(ledger);
    return 0;
}
