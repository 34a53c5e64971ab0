package org.telovamish.tbclient;

/**
 * The caller's own limit on a call went by, or its thread was interrupted. If the call may have
 * sent its request, that is in doubt.
 */
public final class CancelledException extends ClientException {
    private static final long serialVersionUID = 1L;

    /** Whether the request may have been sent. */
    private final boolean sent;

    /**
     * For a {@link Transport}.
     *
     * @param message what ended the call
     * @param sent whether the request may have been sent
     */
    public CancelledException(String message, boolean sent) {
        super(message);
        this.sent = sent;
    }

    @Override
    public boolean mayHaveSent() {
        return sent;
    }
}
