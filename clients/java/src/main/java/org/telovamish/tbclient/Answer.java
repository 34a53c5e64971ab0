package org.telovamish.tbclient;

import java.math.BigInteger;
import java.util.List;

/** What a reply says. */
public sealed interface Answer {
    /**
     * The test that no event failed. Everything else in a reply is ignored.
     *
     * @throws EventsFailedException if an event was not accepted
     */
    default void requireOk() {}

    /**
     * The answer to a register.
     *
     * @param session the new session
     */
    record Registered(BigInteger session) implements Answer {}

    /**
     * The answer to create_accounts.
     *
     * @param results those of the accounts that were not created, by rising index
     */
    record AccountResults(List<EventResult<CreateAccountResult>> results) implements Answer {
        @Override
        public void requireOk() {
            Session.requireOk(results);
        }
    }

    /**
     * The answer to create_transfers.
     *
     * @param results those of the transfers that were not made, by rising index
     */
    record TransferResults(List<EventResult<CreateTransferResult>> results) implements Answer {
        @Override
        public void requireOk() {
            Session.requireOk(results);
        }
    }

    /**
     * The answer to lookup_accounts.
     *
     * @param accounts those that are there, in the order of the ids
     */
    record Accounts(List<Account> accounts) implements Answer {}

    /**
     * The answer to lookup_transfers.
     *
     * @param transfers those that are there, in the order of the ids
     */
    record Transfers(List<Transfer> transfers) implements Answer {}
}
