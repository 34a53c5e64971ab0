package org.telovamish.tbclient;

/** The system refused a file: it is missing, there is no such folder, or no permission. */
public final class FileException extends NotSentException {
    private static final long serialVersionUID = 1L;

    FileException(String message, java.io.IOException cause) {
        super(message, cause);
    }
}
