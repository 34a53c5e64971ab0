package org.telovamish.tbclient;

/** The client has no session: it was never registered, or it was evicted. */
public final class NoSessionException extends EvictedException {
    private static final long serialVersionUID = 1L;

    NoSessionException(String message) {
        super(Status.NO_SESSION, message);
    }
}
