package org.telovamish.tbclient;

/** The transport was closed. */
public final class ClosedException extends NotSentException {
    private static final long serialVersionUID = 1L;

    /**
     * For a {@link Transport}.
     *
     * @param message what was closed
     */
    public ClosedException(String message) {
        super(message);
    }
}
