package org.telovamish.tbclient;

/** The program {@code tbd} is not found, or does not start. */
public final class CannotStartException extends NotSentException {
    private static final long serialVersionUID = 1L;

    CannotStartException(String message, Throwable cause) {
        super(message, cause);
    }
}
