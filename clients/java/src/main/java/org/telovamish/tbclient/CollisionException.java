package org.telovamish.tbclient;

/** The last number, with other content: the bytes were not kept. */
public final class CollisionException extends RefusedException {
    private static final long serialVersionUID = 1L;

    CollisionException(String message) {
        super(Status.COLLISION, message);
    }
}
