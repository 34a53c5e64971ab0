package org.telovamish.tbclient;

/** What came is no reply to the request that was sent. */
public final class BadReplyException extends ClientException {
    private static final long serialVersionUID = 1L;

    /**
     * For a {@link Transport}.
     *
     * @param message what is wrong with it
     */
    public BadReplyException(String message) {
        super(message);
    }
}
