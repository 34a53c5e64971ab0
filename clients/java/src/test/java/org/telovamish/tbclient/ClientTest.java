package org.telovamish.tbclient;

import static org.junit.Assert.assertArrayEquals;
import static org.junit.Assert.assertEquals;
import static org.junit.Assert.assertFalse;
import static org.junit.Assert.assertThrows;
import static org.junit.Assert.assertTrue;

import java.math.BigInteger;
import java.time.Duration;
import java.util.List;
import java.util.UUID;
import org.junit.Test;

/** Clients that callers share, and their batches. The conformance kit tests what they send. */
public final class ClientTest {
    private static final byte[] CLUSTER = UInt128.asBytes(0);

    private static Client client(String... addresses) {
        return new Client(CLUSTER, addresses);
    }

    /** Texts that are addresses, and texts that are not. */
    @Test
    public void addresses() {
        for (String it :
                new String[] {"3000", "a", "a:1", "[::1]:3000", "[::1]", "./s", "a,b:2", ":1"}) {
            client(it).close();
        }
        for (String it :
                new String[] {"", ":", "a:b", "a:1:2", "70000", "a:0", "3000,", "123456"}) {
            assertThrows(it, InvalidValueException.class, () -> client(it));
        }
        assertThrows(InvalidValueException.class, () -> client());
    }

    /** Options that are out of their range. */
    @Test
    public void options() {
        ClientOptions it = ClientOptions.DEFAULT;
        assertThrows(InvalidValueException.class, () -> it.withSessions(0));
        assertThrows(InvalidValueException.class, () -> it.withSessions(65));
        assertThrows(InvalidValueException.class, () -> it.withTimeout(Duration.ZERO));
        assertThrows(
                InvalidValueException.class, () -> new Client(new byte[15], new String[] {"1"}));
    }

    /** A batch is read and set one record at a time. */
    @Test
    public void batches() {
        TransferBatch batch = new TransferBatch(1);
        assertThrows(IllegalStateException.class, batch::getId);
        UUID uuid = UUID.randomUUID();
        batch.add();
        batch.setId(uuid);
        batch.setAmount(7);
        batch.setFlags(TransferFlags.LINKED);
        batch.add();
        batch.setId(1, 2);
        batch.setAmount(BigInteger.TWO.pow(127));
        batch.setTimeout(-1);
        assertEquals(2, batch.getLength());
        batch.beforeFirst();
        assertTrue(batch.next());
        assertEquals(uuid, UInt128.asUUID(batch.getId()));
        assertEquals(BigInteger.valueOf(7), batch.getAmount());
        assertEquals(TransferFlags.LINKED, batch.getFlags());
        assertTrue(batch.next());
        BigInteger wide = BigInteger.TWO.shiftLeft(64).or(BigInteger.ONE);
        assertEquals(wide, UInt128.asBigInteger(batch.getId()));
        assertEquals(wide, batch.get().id());
        assertEquals(0xffffffffL, batch.get().timeout());
        assertFalse(batch.next());
        assertThrows(InvalidValueException.class, () -> UInt128.asBytes(-1));
        assertArrayEquals(
                UInt128.asBytes(wide), new byte[] {1, 0, 0, 0, 0, 0, 0, 0, 2, 0, 0, 0, 0, 0, 0, 0});
    }

    /** Results are read one at a time, and those of a code may be passed over. */
    @Test
    public void results() {
        List<EventResult<CreateTransferResult>> all =
                List.of(new EventResult<>(1, CreateTransferResult.EXISTS),
                        new EventResult<>(4, CreateTransferResult.EXCEEDS_CREDITS));
        CreateTransferResultBatch batch = new CreateTransferResultBatch(all);
        assertThrows(IllegalStateException.class, batch::getIndex);
        assertTrue(batch.next());
        assertEquals(CreateTransferResult.EXISTS, batch.getResult());
        CreateTransferResultBatch rest = batch.except(CreateTransferResult.EXISTS);
        assertEquals(1, rest.getLength());
        assertTrue(rest.next());
        assertEquals(4, rest.getIndex());
        assertFalse(rest.next());
        assertThrows(IllegalStateException.class, rest::getIndex);
    }

    /** A call whose limit goes by while no server is there was not sent, and says why. */
    @Test
    public void nobodyListens() {
        ClientOptions options = ClientOptions.DEFAULT.withTimeout(Duration.ofMillis(50));
        try (Client it = new Client(CLUSTER, new String[] {"/nobody/listens.sock"}, options)) {
            IdBatch ids = new IdBatch(1);
            ids.add(1);
            Duration limit = Duration.ofSeconds(2);
            CancelledException why =
                    assertThrows(CancelledException.class, () -> it.lookupAccounts(ids, limit));
            assertFalse(why.mayHaveSent());
            assertTrue(why.getMessage(), why.getMessage().contains("listens.sock"));
        }
    }

    /** A client that was closed sends nothing, and a call that waited is told so. */
    @Test
    public void closed() {
        Client it = client("/nobody/listens.sock");
        var waiting = it.lookupAccountsAsync(new IdBatch(0));
        it.close();
        assertTrue(waiting.isCompletedExceptionally());
        assertThrows(ClosedException.class, () -> it.lookupAccounts(new IdBatch(0)));
    }
}
