import java.nio.file.Path;
import org.telovamish.tbclient.*;

public class First {
    public static void main(String[] words) {
        try (Client ledger = Client.open(Path.of("java.tbk"))) {
            AccountBatch accounts = new AccountBatch(2);
            for (long id = 1; id <= 2; id++) {
                accounts.add();
                accounts.setId(id);
                accounts.setLedger(700);
                accounts.setCode(10);
            }
            ledger.createAccounts(accounts);
            TransferBatch sale = new TransferBatch(1);
            sale.add();
            sale.setId(1001);
            sale.setDebitAccountId(1);
            sale.setCreditAccountId(2);
            sale.setAmount(10);
            sale.setLedger(700);
            sale.setCode(10);
            ledger.createTransfers(sale);
            IdBatch ids = new IdBatch(1);
            ids.add(2);
            AccountBatch found = ledger.lookupAccounts(ids);
            found.next();
            System.out.println(found.getCreditsPosted());
        }
    }
}
