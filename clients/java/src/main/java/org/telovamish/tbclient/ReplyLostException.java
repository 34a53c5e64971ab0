package org.telovamish.tbclient;

/**
 * No reply came. The request may have been executed or not: send the same bytes again, by {@link
 * Session#retry}.
 */
public class ReplyLostException extends ClientException {
    private static final long serialVersionUID = 1L;

    /** What the server said. */
    private final String told;

    /**
     * For a {@link Transport}.
     *
     * @param message what became of the sending
     * @param told the name that the server gave, or an empty text
     * @param cause its cause, or null
     */
    public ReplyLostException(String message, String told, Throwable cause) {
        super(message, cause);
        this.told = Values.given("told", told);
    }

    /**
     * The name that the server gave before it closed the connection.
     *
     * @return the name, or an empty text if it gave no name
     */
    public String told() {
        return told;
    }
}
