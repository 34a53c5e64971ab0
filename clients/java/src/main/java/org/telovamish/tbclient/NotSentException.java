package org.telovamish.tbclient;

/** Nothing was sent by this call. */
public abstract class NotSentException extends ClientException {
    private static final long serialVersionUID = 1L;

    NotSentException(String message) {
        super(message);
    }

    NotSentException(String message, Throwable cause) {
        super(message, cause);
    }

    @Override
    public final boolean mayHaveSent() {
        return false;
    }
}
