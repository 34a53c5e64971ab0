// Made by tools/tables.py --write from tools/ledger.json: edit that.

package org.telovamish.tbclient;

/** What became of an event of create_transfers. */
public enum CreateTransferResult implements ResultCode {
    /** The transfer is recorded. */
    OK(0, "ok"),
    /** Another event of its linked chain failed. */
    LINKED_EVENT_FAILED(1, "linked_event_failed"),
    /** It is linked, and the batch ends with it. */
    LINKED_EVENT_CHAIN_OPEN(2, "linked_event_chain_open"),
    /** Its timestamp is not 0. */
    TIMESTAMP_MUST_BE_ZERO(3, "timestamp_must_be_zero"),
    /** It has the flag imported, or a bit that is no flag. */
    RESERVED_FLAG(4, "reserved_flag"),
    /** Its id is 0. */
    ID_MUST_NOT_BE_ZERO(5, "id_must_not_be_zero"),
    /** Its id is the largest number. */
    ID_MUST_NOT_BE_INT_MAX(6, "id_must_not_be_int_max"),
    /** It both posts and voids, or does either and is pending, balancing or closing too. */
    FLAGS_ARE_MUTUALLY_EXCLUSIVE(7, "flags_are_mutually_exclusive"),
    /** Its debit_account_id is 0. */
    DEBIT_ACCOUNT_ID_MUST_NOT_BE_ZERO(8, "debit_account_id_must_not_be_zero"),
    /** Its debit_account_id is the largest number. */
    DEBIT_ACCOUNT_ID_MUST_NOT_BE_INT_MAX(9, "debit_account_id_must_not_be_int_max"),
    /** Its credit_account_id is 0. */
    CREDIT_ACCOUNT_ID_MUST_NOT_BE_ZERO(10, "credit_account_id_must_not_be_zero"),
    /** Its credit_account_id is the largest number. */
    CREDIT_ACCOUNT_ID_MUST_NOT_BE_INT_MAX(11, "credit_account_id_must_not_be_int_max"),
    /** Debit and credit account are the same. */
    ACCOUNTS_MUST_BE_DIFFERENT(12, "accounts_must_be_different"),
    /** It has a pending_id, and neither posts nor voids. */
    PENDING_ID_MUST_BE_ZERO(13, "pending_id_must_be_zero"),
    /** It posts or voids, and its pending_id is 0. */
    PENDING_ID_MUST_NOT_BE_ZERO(14, "pending_id_must_not_be_zero"),
    /** It posts or voids, and its pending_id is the largest number. */
    PENDING_ID_MUST_NOT_BE_INT_MAX(15, "pending_id_must_not_be_int_max"),
    /** It posts or voids, and its pending_id is its own id. */
    PENDING_ID_MUST_BE_DIFFERENT(16, "pending_id_must_be_different"),
    /** It has a timeout, and is not pending. */
    TIMEOUT_RESERVED_FOR_PENDING_TRANSFER(17, "timeout_reserved_for_pending_transfer"),
    /** Its ledger is 0. */
    LEDGER_MUST_NOT_BE_ZERO(19, "ledger_must_not_be_zero"),
    /** Its code is 0. */
    CODE_MUST_NOT_BE_ZERO(20, "code_must_not_be_zero"),
    /** No account has its debit_account_id. */
    DEBIT_ACCOUNT_NOT_FOUND(21, "debit_account_not_found"),
    /** No account has its credit_account_id. */
    CREDIT_ACCOUNT_NOT_FOUND(22, "credit_account_not_found"),
    /** The two accounts are of two ledgers. */
    ACCOUNTS_MUST_HAVE_THE_SAME_LEDGER(23, "accounts_must_have_the_same_ledger"),
    /** Its ledger is not that of the accounts. */
    TRANSFER_MUST_HAVE_THE_SAME_LEDGER_AS_ACCOUNTS(
            24, "transfer_must_have_the_same_ledger_as_accounts"),
    /** No transfer has its pending_id. */
    PENDING_TRANSFER_NOT_FOUND(25, "pending_transfer_not_found"),
    /** The transfer of its pending_id was not pending. */
    PENDING_TRANSFER_NOT_PENDING(26, "pending_transfer_not_pending"),
    /** It gives another debit account than the pending transfer. */
    PENDING_TRANSFER_HAS_DIFFERENT_DEBIT_ACCOUNT_ID(
            27, "pending_transfer_has_different_debit_account_id"),
    /** It gives another credit account than the pending transfer. */
    PENDING_TRANSFER_HAS_DIFFERENT_CREDIT_ACCOUNT_ID(
            28, "pending_transfer_has_different_credit_account_id"),
    /** It gives another ledger than the pending transfer. */
    PENDING_TRANSFER_HAS_DIFFERENT_LEDGER(29, "pending_transfer_has_different_ledger"),
    /** It gives another code than the pending transfer. */
    PENDING_TRANSFER_HAS_DIFFERENT_CODE(30, "pending_transfer_has_different_code"),
    /** Its amount is above that of the pending transfer. */
    EXCEEDS_PENDING_TRANSFER_AMOUNT(31, "exceeds_pending_transfer_amount"),
    /** It voids, and its amount is below that of the pending transfer. */
    PENDING_TRANSFER_HAS_DIFFERENT_AMOUNT(32, "pending_transfer_has_different_amount"),
    /** The pending transfer was posted. */
    PENDING_TRANSFER_ALREADY_POSTED(33, "pending_transfer_already_posted"),
    /** The pending transfer was voided. */
    PENDING_TRANSFER_ALREADY_VOIDED(34, "pending_transfer_already_voided"),
    /** The pending transfer has expired. */
    PENDING_TRANSFER_EXPIRED(35, "pending_transfer_expired"),
    /** The transfer of this id has other flags. */
    EXISTS_WITH_DIFFERENT_FLAGS(36, "exists_with_different_flags"),
    /** The transfer of this id has another debit_account_id. */
    EXISTS_WITH_DIFFERENT_DEBIT_ACCOUNT_ID(37, "exists_with_different_debit_account_id"),
    /** The transfer of this id has another credit_account_id. */
    EXISTS_WITH_DIFFERENT_CREDIT_ACCOUNT_ID(38, "exists_with_different_credit_account_id"),
    /** The transfer of this id has another amount; of a balancing transfer, a greater one. */
    EXISTS_WITH_DIFFERENT_AMOUNT(39, "exists_with_different_amount"),
    /** The transfer of this id has another pending_id. */
    EXISTS_WITH_DIFFERENT_PENDING_ID(40, "exists_with_different_pending_id"),
    /** The transfer of this id has another user_data_128. */
    EXISTS_WITH_DIFFERENT_USER_DATA_128(41, "exists_with_different_user_data_128"),
    /** The transfer of this id has another user_data_64. */
    EXISTS_WITH_DIFFERENT_USER_DATA_64(42, "exists_with_different_user_data_64"),
    /** The transfer of this id has another user_data_32. */
    EXISTS_WITH_DIFFERENT_USER_DATA_32(43, "exists_with_different_user_data_32"),
    /** The transfer of this id has another timeout. */
    EXISTS_WITH_DIFFERENT_TIMEOUT(44, "exists_with_different_timeout"),
    /** The transfer of this id has another code. */
    EXISTS_WITH_DIFFERENT_CODE(45, "exists_with_different_code"),
    /** The same transfer exists already. */
    EXISTS(46, "exists"),
    /** It is pending, and the debit account's debits_pending would leave 128 bits. */
    OVERFLOWS_DEBITS_PENDING(47, "overflows_debits_pending"),
    /** It is pending, and the credit account's credits_pending would leave 128 bits. */
    OVERFLOWS_CREDITS_PENDING(48, "overflows_credits_pending"),
    /** The debit account's debits_posted would leave 128 bits. */
    OVERFLOWS_DEBITS_POSTED(49, "overflows_debits_posted"),
    /** The credit account's credits_posted would leave 128 bits. */
    OVERFLOWS_CREDITS_POSTED(50, "overflows_credits_posted"),
    /** The debit account's debits, pending and posted, would leave 128 bits. */
    OVERFLOWS_DEBITS(51, "overflows_debits"),
    /** The credit account's credits, pending and posted, would leave 128 bits. */
    OVERFLOWS_CREDITS(52, "overflows_credits"),
    /** It would expire after the last moment of the clock. */
    OVERFLOWS_TIMEOUT(53, "overflows_timeout"),
    /** The debit account's debits would exceed its credits, which it forbids. */
    EXCEEDS_CREDITS(54, "exceeds_credits"),
    /** The credit account's credits would exceed its debits, which it forbids. */
    EXCEEDS_DEBITS(55, "exceeds_debits"),
    /** It closes an account, and is not pending. */
    CLOSING_TRANSFER_MUST_BE_PENDING(64, "closing_transfer_must_be_pending"),
    /** The debit account is closed. */
    DEBIT_ACCOUNT_ALREADY_CLOSED(65, "debit_account_already_closed"),
    /** The credit account is closed. */
    CREDIT_ACCOUNT_ALREADY_CLOSED(66, "credit_account_already_closed"),
    /** The transfer of this id has another ledger. */
    EXISTS_WITH_DIFFERENT_LEDGER(67, "exists_with_different_ledger"),
    /** By profile 2: a transfer of this id was refused for a cause that may pass. */
    ID_ALREADY_FAILED(68, "id_already_failed");

    private final int code;
    private final String label;

    CreateTransferResult(int code, String label) {
        this.code = code;
        this.label = label;
    }

    /**
     * The number in a frame.
     *
     * @return the number
     */
    @Override
    public int code() {
        return code;
    }

    /**
     * The name, as TigerBeetle and the pages have it.
     *
     * @return the name
     */
    @Override
    public String label() {
        return label;
    }

    /**
     * The one that has a number.
     *
     * @param code the number
     * @return the one, or null where none has it
     */
    public static CreateTransferResult of(int code) {
        for (CreateTransferResult it : values()) {
            if (it.code == code) {
                return it;
            }
        }
        return null;
    }
}
