package org.telovamish.tbother;

import static org.junit.Assert.assertArrayEquals;
import static org.junit.Assert.assertEquals;
import static org.junit.Assert.assertThrows;
import static org.junit.Assert.assertTrue;

import java.math.BigInteger;
import java.time.Duration;
import java.util.ArrayList;
import java.util.List;
import org.junit.Test;
import org.telovamish.tbclient.BadReplyException;
import org.telovamish.tbclient.BusyException;
import org.telovamish.tbclient.CancelledException;
import org.telovamish.tbclient.CannotConnectException;
import org.telovamish.tbclient.ClientException;
import org.telovamish.tbclient.ClosedException;
import org.telovamish.tbclient.ReplyLostException;
import org.telovamish.tbclient.Session;
import org.telovamish.tbclient.SessionOptions;
import org.telovamish.tbclient.Transport;

/** A transport of another package's, only by the public interface. */
public class OwnTransportTest {
    private static final SessionOptions THRICE = new SessionOptions(3, Duration.ofMillis(1));

    private final List<ClientException> faults = new ArrayList<>();
    private final List<byte[]> sent = new ArrayList<>();

    /** Throws what is next, or replies to a register: of session 1, which commit 1 gave. */
    private byte[] exchange(byte[] frame, Duration within) {
        sent.add(frame.clone());
        if (!faults.isEmpty()) {
            throw faults.remove(0);
        }
        byte[] reply = frame.clone();
        reply[16] = 1;
        reply[36] = 1;
        return reply;
    }

    private Session registered() {
        Transport own = this::exchange;
        return Session.register(own, BigInteger.TWO, THRICE, null);
    }

    @Test
    public void whatIsLostIsSentAgain() {
        faults.add(new ReplyLostException("the wire was cut", "", null));
        faults.add(new BusyException("the line is taken"));
        assertEquals(BigInteger.ONE, registered().session());
        assertEquals(3, sent.size());
        assertArrayEquals(sent.get(0), sent.get(2));
    }

    @Test
    public void whatElseIsThrownGoesToTheCaller() {
        for (ClientException it : List.of(new BadReplyException("a wrong number"),
                     new CancelledException("it took too long", true),
                     new CannotConnectException("no wire", null),
                     new ClosedException("the wire was taken down"))) {
            faults.add(it);
            assertEquals(it, assertThrows(it.getClass(), this::registered));
        }
        assertTrue(faults.isEmpty());
    }
}
