package org.telovamish.tbclient;

/**
 * The session has ended, and its requests are refused for ever. The last one may have been executed
 * before that: register again, by a new client id, and create its records again with the same ids.
 */
public abstract class EvictedException extends RefusedException {
    private static final long serialVersionUID = 1L;

    EvictedException(Status status, String message) {
        super(status, message);
    }
}
