import java.nio.file.Path;
import java.util.List;
import org.telovamish.tbclient.Account;
import org.telovamish.tbclient.AccountBatch;
import org.telovamish.tbclient.AccountFlags;
import org.telovamish.tbclient.Client;
import org.telovamish.tbclient.CreateTransferResultBatch;
import org.telovamish.tbclient.IdBatch;
import org.telovamish.tbclient.Transfer;
import org.telovamish.tbclient.TransferBatch;
import org.telovamish.tbclient.TransferFlags;

/**
 * A wallet over a ledger in a file: two customers, a deposit, a hold captured in part, a refund.
 *
 * <p>java Wallet [FILE]. Run it as often as you like, and kill it or its tbd at any moment: each
 * step moves money once.
 */
public final class Wallet {
    /** The ledger: amounts are in cents of EUR. */
    private static final int EUR = 978;

    /** What an account is. */
    private static final int CUSTOMER = 10, CASH = 30;

    /** Why a transfer moves money. */
    private static final int DEPOSIT = 1, SALE = 5, REFUND = 9;

    private static final long ANNA = 1, BEN = 2, BANK = 3;

    /** What happens, each with an id of its own, which a program stores with its order. */
    private record Step(String what, Transfer transfer) {}

    private static final List<Step> STEPS =
            List.of(new Step("Anna pays in 100.00", pay(101, BANK, ANNA, 10000, DEPOSIT).build()),
                    new Step("Ben's shop holds 60.00",
                            pay(102, ANNA, BEN, 6000, SALE)
                                    .flags(TransferFlags.PENDING)
                                    .timeout(3600)
                                    .build()),
                    new Step("the order costs 45.00",
                            pay(103, 0, 0, 4500, SALE)
                                    .flags(TransferFlags.POST_PENDING_TRANSFER)
                                    .pendingId(102)
                                    .build()),
                    new Step("Ben gives 5.00 back", pay(104, BEN, ANNA, 500, REFUND).build()),
                    new Step("Anna wants to send 75.00", pay(105, ANNA, BEN, 7500, SALE).build()));

    private static Transfer.Builder pay(long id, long debit, long credit, long amount, int code) {
        return Transfer.builder()
                .id(id)
                .debitAccountId(debit)
                .creditAccountId(credit)
                .amount(amount)
                .ledger(EUR)
                .code(code);
    }

    private static AccountBatch accounts() {
        AccountBatch accounts = new AccountBatch(3);
        for (long id : new long[] {ANNA, BEN, BANK}) {
            accounts.add();
            accounts.setId(id);
            accounts.setLedger(EUR);
            accounts.setCode(id == BANK ? CASH : CUSTOMER);
            accounts.setFlags(id == BANK ? 0 : AccountFlags.DEBITS_MUST_NOT_EXCEED_CREDITS);
        }
        return accounts;
    }

    /** Does what is not done yet, and prints what each customer has. */
    public static void main(String[] args) {
        try (Client ledger = Client.open(Path.of(args.length > 0 ? args[0] : "wallet.tbk"))) {
            ledger.createAccounts(accounts());
            for (Step step : STEPS) {
                TransferBatch batch = new TransferBatch(1);
                batch.add(step.transfer);
                CreateTransferResultBatch errors = ledger.createTransfers(batch);
                String result = errors.next() ? errors.getResult().name().toLowerCase() : "done";
                System.out.println(step.what + ": " + result);
            }
            IdBatch ids = new IdBatch(2);
            ids.add(ANNA);
            ids.add(BEN);
            AccountBatch found = ledger.lookupAccounts(ids);
            for (String name : List.of("Anna", "Ben")) {
                found.next();
                Account it = found.get();
                long has = it.creditsPosted().subtract(it.debitsPosted()).longValueExact();
                System.out.printf("%s has %d.%02d%n", name, has / 100, has % 100);
            }
        }
    }

    private Wallet() {}
}
