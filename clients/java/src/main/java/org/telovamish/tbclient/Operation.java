// Made by tools/tables.py --write from tools/ledger.json: edit that.

package org.telovamish.tbclient;

/** What a request asks for. */
public enum Operation {
    /** Begins a session of a client. */
    REGISTER(2, "register"),
    /** Creates accounts. */
    CREATE_ACCOUNTS(129, "create_accounts"),
    /** Creates transfers. */
    CREATE_TRANSFERS(130, "create_transfers"),
    /** Looks accounts up by their ids. */
    LOOKUP_ACCOUNTS(131, "lookup_accounts"),
    /** Looks transfers up by their ids. */
    LOOKUP_TRANSFERS(132, "lookup_transfers");

    private final int code;
    private final String label;

    Operation(int code, String label) {
        this.code = code;
        this.label = label;
    }

    /**
     * The number in a frame.
     *
     * @return the number
     */
    public int code() {
        return code;
    }

    /**
     * The name, as TigerBeetle and the pages have it.
     *
     * @return the name
     */
    public String label() {
        return label;
    }

    /**
     * The one that has a number.
     *
     * @param code the number
     * @return the one, or null where none has it
     */
    public static Operation of(int code) {
        for (Operation it : values()) {
            if (it.code == code) {
                return it;
            }
        }
        return null;
    }
}
