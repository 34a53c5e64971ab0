// Made by tools/tables.py --write from tools/ledger.json: edit that.

package org.telovamish.tbclient;

/** What became of an event of create_accounts. */
public enum CreateAccountResult implements ResultCode {
    /** The account is recorded. */
    OK(0, "ok"),
    /** Another event of its linked chain failed. */
    LINKED_EVENT_FAILED(1, "linked_event_failed"),
    /** It is linked, and the batch ends with it. */
    LINKED_EVENT_CHAIN_OPEN(2, "linked_event_chain_open"),
    /** Its timestamp is not 0. */
    TIMESTAMP_MUST_BE_ZERO(3, "timestamp_must_be_zero"),
    /** Its reserved field is not 0. */
    RESERVED_FIELD(4, "reserved_field"),
    /** It has the flag imported, or a bit that is no flag. */
    RESERVED_FLAG(5, "reserved_flag"),
    /** Its id is 0. */
    ID_MUST_NOT_BE_ZERO(6, "id_must_not_be_zero"),
    /** Its id is the largest number. */
    ID_MUST_NOT_BE_INT_MAX(7, "id_must_not_be_int_max"),
    /** It has both debits_must_not_exceed_credits and credits_must_not_exceed_debits. */
    FLAGS_ARE_MUTUALLY_EXCLUSIVE(8, "flags_are_mutually_exclusive"),
    /** Its debits_pending is not 0. */
    DEBITS_PENDING_MUST_BE_ZERO(9, "debits_pending_must_be_zero"),
    /** Its debits_posted is not 0. */
    DEBITS_POSTED_MUST_BE_ZERO(10, "debits_posted_must_be_zero"),
    /** Its credits_pending is not 0. */
    CREDITS_PENDING_MUST_BE_ZERO(11, "credits_pending_must_be_zero"),
    /** Its credits_posted is not 0. */
    CREDITS_POSTED_MUST_BE_ZERO(12, "credits_posted_must_be_zero"),
    /** Its ledger is 0. */
    LEDGER_MUST_NOT_BE_ZERO(13, "ledger_must_not_be_zero"),
    /** Its code is 0. */
    CODE_MUST_NOT_BE_ZERO(14, "code_must_not_be_zero"),
    /** The account of this id has other flags. */
    EXISTS_WITH_DIFFERENT_FLAGS(15, "exists_with_different_flags"),
    /** The account of this id has another user_data_128. */
    EXISTS_WITH_DIFFERENT_USER_DATA_128(16, "exists_with_different_user_data_128"),
    /** The account of this id has another user_data_64. */
    EXISTS_WITH_DIFFERENT_USER_DATA_64(17, "exists_with_different_user_data_64"),
    /** The account of this id has another user_data_32. */
    EXISTS_WITH_DIFFERENT_USER_DATA_32(18, "exists_with_different_user_data_32"),
    /** The account of this id has another ledger. */
    EXISTS_WITH_DIFFERENT_LEDGER(19, "exists_with_different_ledger"),
    /** The account of this id has another code. */
    EXISTS_WITH_DIFFERENT_CODE(20, "exists_with_different_code"),
    /** The same account exists already. */
    EXISTS(21, "exists");

    private final int code;
    private final String label;

    CreateAccountResult(int code, String label) {
        this.code = code;
        this.label = label;
    }

    /**
     * The number in a frame.
     *
     * @return the number
     */
    @Override
    public int code() {
        return code;
    }

    /**
     * The name, as TigerBeetle and the pages have it.
     *
     * @return the name
     */
    @Override
    public String label() {
        return label;
    }

    /**
     * The one that has a number.
     *
     * @param code the number
     * @return the one, or null where none has it
     */
    public static CreateAccountResult of(int code) {
        for (CreateAccountResult it : values()) {
            if (it.code == code) {
                return it;
            }
        }
        return null;
    }
}
