package org.telovamish.tbclient;

/** It is new and not yet shown: of seats only. Send it again. */
public final class NotYetException extends RefusedException {
    private static final long serialVersionUID = 1L;

    NotYetException(String message) {
        super(Status.NOT_YET, message);
    }
}
