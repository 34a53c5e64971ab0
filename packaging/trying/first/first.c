#include <stdio.h>
#include <tb_client.h>

int main(void) {
    tb_client *ledger;
    tb_event_result results[2];
    size_t failed, found;
    tb_u128 one = tb_u128_of(1), two = tb_u128_of(2);
    tb_account accounts[2] = {
        {.id = one, .ledger = 700, .code = 10}, {.id = two, .ledger = 700, .code = 10}};
    tb_transfer sale = {.id = tb_u128_of(1001),
        .debit_account_id = one,
        .credit_account_id = two,
        .amount = tb_u128_of(10),
        .ledger = 700,
        .code = 10};
    if (tb_client_open("c.tbk", NULL, &ledger, NULL)) return 1;
    if (tb_client_create_accounts(ledger, accounts, 2, results, &failed, TB_NO_LIMIT, NULL))
        return 1;
    if (tb_client_create_transfers(ledger, &sale, 1, results, &failed, TB_NO_LIMIT, NULL)) return 1;
    if (tb_client_lookup_accounts(ledger, &two, 1, accounts, &found, TB_NO_LIMIT, NULL)) return 1;
    printf("%llu\n", (unsigned long long)accounts[0].credits_posted.low);
    tb_client_free(ledger);
    return 0;
}
