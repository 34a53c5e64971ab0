package org.telovamish.tbclient;

/**
 * The base of all that this client throws.
 *
 * <p>{@link #mayHaveSent} is what a caller has to know of any of them: whether the call may have
 * brought its request to the server. If it may, the request is in doubt, and {@link
 * Session#retry} sends the same bytes again.
 */
public abstract class ClientException extends RuntimeException {
    private static final long serialVersionUID = 1L;

    ClientException(String message) {
        super(message);
    }

    ClientException(String message, Throwable cause) {
        super(message, cause);
    }

    /**
     * Whether the call may have sent its request.
     *
     * @return false if nothing was sent
     */
    public boolean mayHaveSent() {
        return true;
    }
}
