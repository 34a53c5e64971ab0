// Made by tools/tables.py --write from tools/ledger.json: edit that.

package org.telovamish.tbclient;

/** The flags of an account. */
public final class AccountFlags {
    /** Linked to the next event: both succeed, or both fail. */
    public static final int LINKED = 1;
    /** Pending and posted debits together are at most the posted credits. */
    public static final int DEBITS_MUST_NOT_EXCEED_CREDITS = 2;
    /** Pending and posted credits together are at most the posted debits. */
    public static final int CREDITS_MUST_NOT_EXCEED_DEBITS = 4;
    /** Kept with the account; it changes nothing here. */
    public static final int HISTORY = 8;
    /** Refused as reserved_flag. */
    public static final int IMPORTED = 16;
    /** The account accepts no transfer except a void. */
    public static final int CLOSED = 32;

    private static final String[] NAMES = {
            "linked",
            "debits_must_not_exceed_credits",
            "credits_must_not_exceed_debits",
            "history",
            "imported",
            "closed",
    };

    private AccountFlags() {}

    /**
     * The names of flags, in the order of their bits.
     *
     * @param flags the flags
     * @return their names; bits without a name are left out
     */
    public static java.util.List<String> names(int flags) {
        java.util.List<String> found = new java.util.ArrayList<>();
        for (int place = 0; place < NAMES.length; place++) {
            if ((flags & 1 << place) != 0) {
                found.add(NAMES[place]);
            }
        }
        return found;
    }
}
