package org.telovamish.tbclient;

/**
 * The server has too many connections, or this peer has its share, and the server did not take the
 * request: come later.
 */
public final class BusyException extends ReplyLostException {
    private static final long serialVersionUID = 1L;

    /**
     * For a {@link Transport}.
     *
     * @param message what became of the sending
     */
    public BusyException(String message) {
        this(message, "Busy");
    }

    BusyException(String message, String told) {
        super(message, told, null);
    }
}
