package org.telovamish.tbclient;

/** The last request has no reply yet: {@link Session#retry} it before another one is made. */
public final class InDoubtException extends NotSentException {
    private static final long serialVersionUID = 1L;

    InDoubtException(String message) {
        super(message);
    }
}
