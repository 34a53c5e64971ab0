package org.telovamish.tbclient;

/** The client has a later session. */
public final class SessionTooLowException extends EvictedException {
    private static final long serialVersionUID = 1L;

    SessionTooLowException(String message) {
        super(Status.SESSION_TOO_LOW, message);
    }
}
