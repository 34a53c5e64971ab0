package org.telovamish.tbclient;

import java.math.BigInteger;

/**
 * What outlives a client. Keep it between {@link Session#prepare} and {@link Session#retry}.
 *
 * @param client the client's id, 1 to 2^128 - 1
 * @param session its session, 64 bits; 0 if it is not registered
 * @param number the number of its last request that was answered, 32 bits
 * @param pending the bytes in doubt, in hex; empty if there are none
 */
public record Saved(BigInteger client, BigInteger session, long number, String pending) {}
