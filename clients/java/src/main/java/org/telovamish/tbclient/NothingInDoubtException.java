package org.telovamish.tbclient;

/** There is no request to be sent again. */
public final class NothingInDoubtException extends NotSentException {
    private static final long serialVersionUID = 1L;

    NothingInDoubtException(String message) {
        super(message);
    }
}
