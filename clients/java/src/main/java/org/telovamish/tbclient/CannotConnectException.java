package org.telovamish.tbclient;

/** No address could be connected to within the timeout, or TLS was not agreed on. */
public final class CannotConnectException extends NotSentException {
    private static final long serialVersionUID = 1L;

    /** Whether one side does not trust the other. */
    private final boolean isFinal;

    /**
     * For a {@link Transport}.
     *
     * @param message why nothing could be sent
     * @param cause its cause, or null
     */
    public CannotConnectException(String message, Throwable cause) {
        this(message, cause, false);
    }

    CannotConnectException(String message, Throwable cause, boolean isFinal) {
        super(message, cause);
        this.isFinal = isFinal;
    }

    /**
     * Whether it stays so: at each address one side does not trust the other.
     *
     * @return whether calling again changes nothing
     */
    public boolean isFinal() {
        return isFinal;
    }
}
