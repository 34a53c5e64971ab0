// Made by tools/tables.py --write from tools/ledger.json: edit that.

package org.telovamish.tbclient;

/** What the server says of a request, in its reply. */
public enum Status {
    /** It is in the history, and this is its reply. */
    REPLY(0, "Reply"),
    /** It is of a client without a session: it was never registered, or evicted. */
    NO_SESSION(1, "NoSession"),
    /** It has a session below the client's. */
    SESSION_TOO_LOW(2, "SessionTooLow"),
    /** It has a session above the client's. */
    NEWER_SESSION(3, "NewerSession"),
    /** It has a number below the client's last. */
    OLDER(4, "Older"),
    /** It has the last number and another content. */
    COLLISION(5, "Collision"),
    /** It skips a number. */
    NEWER_REQUEST(6, "NewerRequest"),
    /** It is new and not yet shown (only seats return this). */
    NOT_YET(7, "NotYet");

    private final int code;
    private final String label;

    Status(int code, String label) {
        this.code = code;
        this.label = label;
    }

    /**
     * The number in a frame.
     *
     * @return the number
     */
    public int code() {
        return code;
    }

    /**
     * The name, as TigerBeetle and the pages have it.
     *
     * @return the name
     */
    public String label() {
        return label;
    }

    /**
     * The one that has a number.
     *
     * @param code the number
     * @return the one, or null where none has it
     */
    public static Status of(int code) {
        for (Status it : values()) {
            if (it.code == code) {
                return it;
            }
        }
        return null;
    }
}
