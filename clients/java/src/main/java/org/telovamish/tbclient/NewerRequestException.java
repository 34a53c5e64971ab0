package org.telovamish.tbclient;

/** A number was skipped: it was kept wrongly. */
public final class NewerRequestException extends RefusedException {
    private static final long serialVersionUID = 1L;

    NewerRequestException(String message) {
        super(Status.NEWER_REQUEST, message);
    }
}
