package org.telovamish.tbclient;

/**
 * The server refused the request, and changed nothing. A refusal says nothing of an earlier sending
 * of the same bytes: the request stays in doubt.
 */
public abstract class RefusedException extends ClientException {
    private static final long serialVersionUID = 1L;

    /** Why. */
    private final Status status;

    RefusedException(Status status, String message) {
        super(message);
        this.status = status;
    }

    /**
     * Why it was refused.
     *
     * @return the status; a subclass has its name
     */
    public Status status() {
        return status;
    }

    /** The exception of a status, which is not that of a reply. */
    static RefusedException of(Status status, long number, String session) {
        String begin = "request " + number + " of session " + session + " is refused: ";
        switch (status) {
            case NO_SESSION:
                return new NoSessionException(begin + "the client has no session, register anew");
            case SESSION_TOO_LOW:
                return new SessionTooLowException(begin + "the client has a later session");
            case NEWER_SESSION:
                return new NewerSessionException(begin + "the server knows no such session");
            case OLDER:
                return new OlderException(begin + "a later request of the session was executed");
            case COLLISION:
                return new CollisionException(begin + "its number was used for another request");
            case NEWER_REQUEST:
                return new NewerRequestException(begin + "a request before it is missing");
            case NOT_YET:
                return new NotYetException(begin + "it is not shown yet");
            default:
                throw new IllegalArgumentException(status + " is no refusal");
        }
    }
}
