// Made by tools/tables.py --write from tools/ledger.json: edit that.

package org.telovamish.tbclient;

/** Sizes, limits, and where each field is. */
final class Layout {
    static final int HEADER_SIZE = 48;
    static final int RECORD_SIZE = 128;
    static final int ID_SIZE = 16;
    static final int RESULT_SIZE = 8;
    static final int ITEMS_MAX = 8190;
    static final int CLIENTS_MAX = 64;
    static final long NUMBER_MAX = 4294967295L;

    static final int ACCOUNT_ID = 0; // u128
    static final int ACCOUNT_DEBITS_PENDING = 16; // u128
    static final int ACCOUNT_DEBITS_POSTED = 32; // u128
    static final int ACCOUNT_CREDITS_PENDING = 48; // u128
    static final int ACCOUNT_CREDITS_POSTED = 64; // u128
    static final int ACCOUNT_USER_DATA_128 = 80; // u128
    static final int ACCOUNT_USER_DATA_64 = 96; // u64
    static final int ACCOUNT_USER_DATA_32 = 104; // u32
    static final int ACCOUNT_RESERVED = 108; // u32
    static final int ACCOUNT_LEDGER = 112; // u32
    static final int ACCOUNT_CODE = 116; // u16
    static final int ACCOUNT_FLAGS = 118; // u16
    static final int ACCOUNT_TIMESTAMP = 120; // u64

    static final int TRANSFER_ID = 0; // u128
    static final int TRANSFER_DEBIT_ACCOUNT_ID = 16; // u128
    static final int TRANSFER_CREDIT_ACCOUNT_ID = 32; // u128
    static final int TRANSFER_AMOUNT = 48; // u128
    static final int TRANSFER_PENDING_ID = 64; // u128
    static final int TRANSFER_USER_DATA_128 = 80; // u128
    static final int TRANSFER_USER_DATA_64 = 96; // u64
    static final int TRANSFER_USER_DATA_32 = 104; // u32
    static final int TRANSFER_TIMEOUT = 108; // u32
    static final int TRANSFER_LEDGER = 112; // u32
    static final int TRANSFER_CODE = 116; // u16
    static final int TRANSFER_FLAGS = 118; // u16
    static final int TRANSFER_TIMESTAMP = 120; // u64

    static final int RESULT_INDEX = 0; // u32
    static final int RESULT_RESULT = 4; // u32

    static final int REQUEST_HEADER_CLIENT = 0; // u128
    static final int REQUEST_HEADER_SESSION = 16; // u64
    static final int REQUEST_HEADER_REQUEST = 24; // u32
    static final int REQUEST_HEADER_OPERATION = 28; // u8
    static final int REQUEST_HEADER_LENGTH = 32; // u32

    static final int REPLY_HEADER_CLIENT = 0; // u128
    static final int REPLY_HEADER_SESSION = 16; // u64
    static final int REPLY_HEADER_REQUEST = 24; // u32
    static final int REPLY_HEADER_OPERATION = 28; // u8
    static final int REPLY_HEADER_STATUS = 29; // u8
    static final int REPLY_HEADER_LENGTH = 32; // u32
    static final int REPLY_HEADER_COMMIT = 36; // u64

    static int requestItemSize(Operation operation) {
        switch (operation) {
            case CREATE_ACCOUNTS:
                return 128;
            case CREATE_TRANSFERS:
                return 128;
            case LOOKUP_ACCOUNTS:
                return 16;
            case LOOKUP_TRANSFERS:
                return 16;
            default:
                return 0;
        }
    }

    static int replyItemSize(Operation operation) {
        switch (operation) {
            case CREATE_ACCOUNTS:
                return 8;
            case CREATE_TRANSFERS:
                return 8;
            case LOOKUP_ACCOUNTS:
                return 128;
            case LOOKUP_TRANSFERS:
                return 128;
            default:
                return 0;
        }
    }

    private Layout() {}
}
