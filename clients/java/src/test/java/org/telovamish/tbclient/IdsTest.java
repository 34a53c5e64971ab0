package org.telovamish.tbclient;

import static org.junit.Assert.assertEquals;
import static org.junit.Assert.assertTrue;

import java.math.BigInteger;
import java.util.HexFormat;
import java.util.Iterator;
import java.util.List;
import org.junit.Test;

/** Ids rise, whatever the clock does. */
public class IdsTest {
    private static final BigInteger SECOND = BigInteger.valueOf(1000).shiftLeft(80);

    private static Ids ids(List<Long> times, List<String> drawn) {
        Iterator<Long> time = times.iterator();
        Iterator<String> draw = drawn.iterator();
        return new Ids(time::next, () -> HexFormat.of().parseHex(draw.next()));
    }

    @Test
    public void aClockThatStandsOrIsSetBackKeepsTheLastTime() {
        Ids ids = ids(List.of(1000L, 1000L, 999L), List.of("05000000000000000000"));
        assertEquals(SECOND.add(BigInteger.valueOf(5)), ids.next());
        assertEquals(SECOND.add(BigInteger.valueOf(6)), ids.next());
        assertEquals(SECOND.add(BigInteger.valueOf(7)), ids.next());
    }

    @Test
    public void randomBitsOverflowIntoTheNextMillisecond() {
        Ids ids = ids(List.of(1000L, 1000L), List.of("ffffffffffffffffffff"));
        BigInteger last = BigInteger.valueOf(1001).shiftLeft(80).subtract(BigInteger.ONE);
        assertEquals(last, ids.next());
        assertEquals(BigInteger.valueOf(1001).shiftLeft(80), ids.next());
    }

    @Test
    public void idsOfThisProcessAreOfNowAndRise() {
        BigInteger before = Ids.id();
        long now = System.currentTimeMillis();
        assertTrue(Math.abs(before.shiftRight(80).longValue() - now) < 60_000);
        for (int time = 0; time < 10_000; time++) {
            BigInteger next = Ids.id();
            assertTrue(next.compareTo(before) > 0);
            before = next;
        }
    }
}
