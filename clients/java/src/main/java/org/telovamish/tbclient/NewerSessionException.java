package org.telovamish.tbclient;

/**
 * The session is above the one that the server knows: it was kept wrongly, or this is another
 * server.
 */
public final class NewerSessionException extends RefusedException {
    private static final long serialVersionUID = 1L;

    NewerSessionException(String message) {
        super(Status.NEWER_SESSION, message);
    }
}
