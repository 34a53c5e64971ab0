// Made by tools/tables.py --write from tools/ledger.json: edit that.

package org.telovamish.tbclient;

/** The flags of a transfer. */
public final class TransferFlags {
    /** Linked to the next event: both succeed, or both fail. */
    public static final int LINKED = 1;
    /** The amount is held until the transfer is posted or voided, or expires. */
    public static final int PENDING = 2;
    /** It posts the pending transfer of its pending_id. */
    public static final int POST_PENDING_TRANSFER = 4;
    /** It voids the pending transfer of its pending_id. */
    public static final int VOID_PENDING_TRANSFER = 8;
    /** It moves at most what the debit account has left. */
    public static final int BALANCING_DEBIT = 16;
    /** It moves at most what the credit account has left. */
    public static final int BALANCING_CREDIT = 32;
    /** It closes the debit account as long as it is pending. */
    public static final int CLOSING_DEBIT = 64;
    /** It closes the credit account as long as it is pending. */
    public static final int CLOSING_CREDIT = 128;
    /** Refused. */
    public static final int IMPORTED = 256;

    private static final String[] NAMES = {
            "linked",
            "pending",
            "post_pending_transfer",
            "void_pending_transfer",
            "balancing_debit",
            "balancing_credit",
            "closing_debit",
            "closing_credit",
            "imported",
    };

    private TransferFlags() {}

    /**
     * The names of flags, in the order of their bits.
     *
     * @param flags the flags
     * @return their names; bits without a name are left out
     */
    public static java.util.List<String> names(int flags) {
        java.util.List<String> found = new java.util.ArrayList<>();
        for (int place = 0; place < NAMES.length; place++) {
            if ((flags & 1 << place) != 0) {
                found.add(NAMES[place]);
            }
        }
        return found;
    }
}
