package org.telovamish.tbclient;

import static org.junit.Assert.assertEquals;
import static org.junit.Assert.assertNotEquals;
import static org.junit.Assert.assertThrows;

import java.math.BigInteger;
import java.util.HexFormat;
import java.util.List;
import java.util.UUID;
import org.junit.Test;

/** Records, their ranges, and their bytes as docs/use/FORMATS.md has them. */
public class RecordsTest {
    private static final BigInteger WIDE = BigInteger.TWO.pow(128);

    /** Worked out by hand from the table of the page: each place, little-endian. */
    private static final String TRANSFER = "0b000000000000000000000000000000" // id 11
            + "01000000000000000000000000000000" // debit_account_id 1
            + "02000000000000000000000000000000" // credit_account_id 2
            + "ffffffffffffffffffffffffffffffff" // amount 2^128 - 1
            + "00000000000000000100000000000000" // pending_id 2^64
            + "00000000000000000000000000000000" // user_data_128
            + "0000000000000080" // user_data_64 2^63
            + "ffffffff" // user_data_32 2^32 - 1
            + "3c000000" // timeout 60
            + "bc020000" // ledger 700
            + "0a00" // code 10
            + "0300" // linked and pending
            + "0000000000000000"; // timestamp

    private static Transfer transfer() {
        return Transfer.builder()
                .id(11)
                .debitAccountId(1)
                .creditAccountId(BigInteger.TWO)
                .amount(WIDE.subtract(BigInteger.ONE))
                .pendingId(BigInteger.TWO.pow(64))
                .userData64(BigInteger.TWO.pow(63))
                .userData32(4294967295L)
                .timeout(60)
                .ledger(700)
                .code(10)
                .flags(TransferFlags.LINKED | TransferFlags.PENDING)
                .build();
    }

    @Test
    public void aTransferHasTheBytesOfThePage() {
        assertEquals(TRANSFER, HexFormat.of().formatHex(transfer().toBytes()));
    }

    @Test
    public void bytesAreReadBack() {
        Transfer it = Transfer.fromBytes(HexFormat.of().parseHex(TRANSFER));
        assertEquals(transfer(), it);
        assertEquals(transfer().hashCode(), it.hashCode());
        assertEquals(new BigInteger("340282366920938463463374607431768211455"), it.amount());
        assertEquals(new BigInteger("18446744073709551616"), it.pendingId());
        assertEquals(new BigInteger("9223372036854775808"), it.userData64());
        assertEquals(4294967295L, it.userData32());
        assertEquals(List.of("linked", "pending"), it.flagNames());
        assertNotEquals(it, Transfer.builder().id(11).build());
    }

    @Test
    public void idsAreNumbersUuidsOrBytes() {
        UUID uuid = new UUID(1, 2);
        BigInteger number = BigInteger.ONE.shiftLeft(64).or(BigInteger.TWO);
        Transfer it = Transfer.builder().id(uuid).pendingId(UInt128.asBytes(number)).build();
        assertEquals(number, it.id());
        assertEquals(number, it.pendingId());
        assertEquals(uuid, UInt128.asUUID(it.id()));
        List<Object> all = List.of(number, uuid, UInt128.asBytes(uuid));
        byte[] body = Frames.body(Operation.LOOKUP_ACCOUNTS, all);
        String hex = HexFormat.of().formatHex(UInt128.asBytes(number));
        assertEquals(hex.repeat(3), HexFormat.of().formatHex(body));
        refused("Transfer.id", () -> Transfer.builder().id(new byte[15]));
        refused("Account.user_data_128", () -> Account.builder().userData128((byte[]) null));
        List<byte[]> wrong = List.of(new byte[17]);
        refused("ids[0]", () -> Frames.body(Operation.LOOKUP_TRANSFERS, wrong));
    }

    @Test
    public void aBuilderThatGoesOnChangesNoRecord() {
        Account.Builder builder = Account.builder().id(1).ledger(700);
        Account first = builder.build();
        Account second = builder.id(2).build();
        first.toBytes()[0] = 9;
        assertEquals(BigInteger.ONE, first.id());
        assertEquals(BigInteger.TWO, second.id());
        assertEquals(700, second.ledger());
    }

    private static void refused(String field, Runnable set) {
        InvalidValueException why = assertThrows(InvalidValueException.class, set::run);
        assertEquals(field, why.field());
    }

    @Test
    public void valuesOutOfRangeAreRefusedByTheirNames() {
        refused("Transfer.amount", () -> Transfer.builder().amount(WIDE));
        refused("Transfer.amount", () -> Transfer.builder().amount(-1));
        refused("Transfer.amount", () -> Transfer.builder().amount(BigInteger.ONE.negate()));
        refused("Transfer.amount", () -> Transfer.builder().amount(null));
        refused("Transfer.timestamp", () -> Transfer.builder().timestamp(BigInteger.TWO.pow(64)));
        refused("Transfer.timeout", () -> Transfer.builder().timeout(4294967296L));
        refused("Account.ledger", () -> Account.builder().ledger(-1));
        refused("Account.code", () -> Account.builder().code(65536));
        refused("Account.flags", () -> Account.builder().flags(-1));
        refused("Account", () -> Account.fromBytes(new byte[127]));
        refused("Account", () -> Account.fromBytes(null));
    }
}
