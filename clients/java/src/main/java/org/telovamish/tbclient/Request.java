package org.telovamish.tbclient;

import java.math.BigInteger;
import java.util.List;

/**
 * A request, as its frame has it. Of its three lists that of its operation has what it asks for,
 * and the others are empty.
 *
 * @param client the client's id
 * @param session its session
 * @param number its number in the session
 * @param operation what it asks for
 * @param accounts the accounts to create
 * @param transfers the transfers to create
 * @param ids the ids to look up
 */
public record Request(BigInteger client, BigInteger session, long number, Operation operation,
        List<Account> accounts, List<Transfer> transfers, List<BigInteger> ids) {
    /**
     * What it asks for, as {@link Session#prepare} takes it.
     *
     * @return its accounts, its transfers or its ids
     */
    public List<?> items() {
        return !accounts.isEmpty() ? accounts : !transfers.isEmpty() ? transfers : ids;
    }
}
