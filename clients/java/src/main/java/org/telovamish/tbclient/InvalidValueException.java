package org.telovamish.tbclient;

/** A field or an argument may not hold what was given. */
public final class InvalidValueException extends NotSentException {
    private static final long serialVersionUID = 1L;

    /** What is wrong. */
    private final String field;

    InvalidValueException(String field, String problem) {
        super(field + " " + problem);
        this.field = field;
    }

    /**
     * What is wrong, as {@code Transfer.amount}, {@code transfers[1]} or {@code attempts}.
     *
     * @return the name of the field or argument
     */
    public String field() {
        return field;
    }
}
