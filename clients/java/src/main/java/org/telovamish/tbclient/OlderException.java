package org.telovamish.tbclient;

/**
 * A later request of this session was executed: another process uses it, or it was kept wrongly.
 */
public final class OlderException extends RefusedException {
    private static final long serialVersionUID = 1L;

    OlderException(String message) {
        super(Status.OLDER, message);
    }
}
