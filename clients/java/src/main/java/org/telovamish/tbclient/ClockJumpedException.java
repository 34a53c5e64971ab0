package org.telovamish.tbclient;

/** The last time of a ledger is too far ahead of this computer's clock. */
public final class ClockJumpedException extends NotSentException {
    private static final long serialVersionUID = 1L;

    ClockJumpedException(String message) {
        super(message);
    }
}
