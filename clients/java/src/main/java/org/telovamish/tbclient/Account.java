// Made by tools/tables.py --write from tools/ledger.json: edit that.

package org.telovamish.tbclient;

import java.math.BigInteger;
import java.util.Arrays;
import java.util.List;
import java.util.UUID;

/**
 * An account. Its balances, and its timestamp, are the ledger's to give.
 *
 * <p>It never changes. A field that is not set is 0. Numbers of 128 and 64 bits are
 * {@link BigInteger}; the builder refuses, by the field's name, what is out of range.
 */
public final class Account {
    private final byte[] data; // as a frame has it

    Account(byte[] data) {
        this.data = data;
    }

    /**
     * Begins an account of which each field is 0.
     *
     * @return its builder
     */
    public static Builder builder() {
        return new Builder();
    }

    /**
     * Reads an account.
     *
     * @param data its 128 bytes, as a frame has them
     * @return the account
     * @throws InvalidValueException where there are fewer bytes, or more
     */
    public static Account fromBytes(byte[] data) {
        return new Account(Values.record("Account", data));
    }

    /**
     * Its bytes.
     *
     * @return 128 bytes, as a frame has them: a copy
     */
    public byte[] toBytes() {
        return data.clone();
    }

    /** The bytes themselves, to be copied and not to be changed. */
    byte[] data() {
        return data;
    }

    /**
     * The id.
     *
     * @return it, u128
     */
    public BigInteger id() {
        return Values.u128(data, Layout.ACCOUNT_ID);
    }

    /**
     * The debits_pending.
     *
     * @return it, u128
     */
    public BigInteger debitsPending() {
        return Values.u128(data, Layout.ACCOUNT_DEBITS_PENDING);
    }

    /**
     * The debits_posted.
     *
     * @return it, u128
     */
    public BigInteger debitsPosted() {
        return Values.u128(data, Layout.ACCOUNT_DEBITS_POSTED);
    }

    /**
     * The credits_pending.
     *
     * @return it, u128
     */
    public BigInteger creditsPending() {
        return Values.u128(data, Layout.ACCOUNT_CREDITS_PENDING);
    }

    /**
     * The credits_posted.
     *
     * @return it, u128
     */
    public BigInteger creditsPosted() {
        return Values.u128(data, Layout.ACCOUNT_CREDITS_POSTED);
    }

    /**
     * The user_data_128.
     *
     * @return it, u128
     */
    public BigInteger userData128() {
        return Values.u128(data, Layout.ACCOUNT_USER_DATA_128);
    }

    /**
     * The user_data_64.
     *
     * @return it, u64
     */
    public BigInteger userData64() {
        return Values.u64(data, Layout.ACCOUNT_USER_DATA_64);
    }

    /**
     * The user_data_32.
     *
     * @return it, u32
     */
    public long userData32() {
        return Values.u32(data, Layout.ACCOUNT_USER_DATA_32);
    }

    /**
     * The reserved.
     *
     * @return it, u32
     */
    public long reserved() {
        return Values.u32(data, Layout.ACCOUNT_RESERVED);
    }

    /**
     * The ledger.
     *
     * @return it, u32
     */
    public long ledger() {
        return Values.u32(data, Layout.ACCOUNT_LEDGER);
    }

    /**
     * The code.
     *
     * @return it, u16
     */
    public int code() {
        return Values.u16(data, Layout.ACCOUNT_CODE);
    }

    /**
     * The flags.
     *
     * @return it, u16
     */
    public int flags() {
        return Values.u16(data, Layout.ACCOUNT_FLAGS);
    }

    /**
     * The names of its flags, in the order of their bits.
     *
     * @return the names, as {@link AccountFlags} has them
     */
    public List<String> flagNames() {
        return AccountFlags.names(flags());
    }

    /**
     * The timestamp.
     *
     * @return it, u64 in nanoseconds
     */
    public BigInteger timestamp() {
        return Values.u64(data, Layout.ACCOUNT_TIMESTAMP);
    }

    @Override
    public boolean equals(Object other) {
        return other instanceof Account && Arrays.equals(data, ((Account) other).data);
    }

    @Override
    public int hashCode() {
        return Arrays.hashCode(data);
    }

    @Override
    public String toString() {
        return "Account{"
                + "id=" + id() + ", debits_pending=" + debitsPending()
                + ", debits_posted=" + debitsPosted() + ", credits_pending=" + creditsPending()
                + ", credits_posted=" + creditsPosted() + ", user_data_128=" + userData128()
                + ", user_data_64=" + userData64() + ", user_data_32=" + userData32()
                + ", reserved=" + reserved() + ", ledger=" + ledger() + ", code=" + code()
                + ", flags=" + flagNames() + ", timestamp=" + timestamp() + "}";
    }

    /** Makes an account. One thread at a time may use it. */
    public static final class Builder {
        private final byte[] data = new byte[Layout.RECORD_SIZE];

        private Builder() {}

        /**
         * Sets the id.
         *
         * @param value u128
         * @return this
         * @throws InvalidValueException if it is no such value
         */
        public Builder id(BigInteger value) {
            Values.u128(data, Layout.ACCOUNT_ID, "Account.id", value);
            return this;
        }

        /**
         * Sets the id.
         *
         * @param value 0 to 2^63 - 1
         * @return this
         * @throws InvalidValueException if it is no such value
         */
        public Builder id(long value) {
            Values.u128(data, Layout.ACCOUNT_ID, "Account.id", value);
            return this;
        }

        /**
         * Sets the id.
         *
         * @param value u128
         * @return this
         * @throws InvalidValueException if it is no such value
         */
        public Builder id(UUID value) {
            Values.id(data, Layout.ACCOUNT_ID, "Account.id", UInt128.asBytes(value));
            return this;
        }

        /**
         * Sets the id.
         *
         * @param value 16 bytes, the low one first
         * @return this
         * @throws InvalidValueException if it is no such value
         */
        public Builder id(byte[] value) {
            Values.id(data, Layout.ACCOUNT_ID, "Account.id", value);
            return this;
        }

        /**
         * Sets the debits_pending.
         *
         * @param value u128
         * @return this
         * @throws InvalidValueException if it is no such value
         */
        public Builder debitsPending(BigInteger value) {
            Values.u128(data, Layout.ACCOUNT_DEBITS_PENDING, "Account.debits_pending", value);
            return this;
        }

        /**
         * Sets the debits_pending.
         *
         * @param value 0 to 2^63 - 1
         * @return this
         * @throws InvalidValueException if it is no such value
         */
        public Builder debitsPending(long value) {
            Values.u128(data, Layout.ACCOUNT_DEBITS_PENDING, "Account.debits_pending", value);
            return this;
        }

        /**
         * Sets the debits_posted.
         *
         * @param value u128
         * @return this
         * @throws InvalidValueException if it is no such value
         */
        public Builder debitsPosted(BigInteger value) {
            Values.u128(data, Layout.ACCOUNT_DEBITS_POSTED, "Account.debits_posted", value);
            return this;
        }

        /**
         * Sets the debits_posted.
         *
         * @param value 0 to 2^63 - 1
         * @return this
         * @throws InvalidValueException if it is no such value
         */
        public Builder debitsPosted(long value) {
            Values.u128(data, Layout.ACCOUNT_DEBITS_POSTED, "Account.debits_posted", value);
            return this;
        }

        /**
         * Sets the credits_pending.
         *
         * @param value u128
         * @return this
         * @throws InvalidValueException if it is no such value
         */
        public Builder creditsPending(BigInteger value) {
            Values.u128(data, Layout.ACCOUNT_CREDITS_PENDING, "Account.credits_pending", value);
            return this;
        }

        /**
         * Sets the credits_pending.
         *
         * @param value 0 to 2^63 - 1
         * @return this
         * @throws InvalidValueException if it is no such value
         */
        public Builder creditsPending(long value) {
            Values.u128(data, Layout.ACCOUNT_CREDITS_PENDING, "Account.credits_pending", value);
            return this;
        }

        /**
         * Sets the credits_posted.
         *
         * @param value u128
         * @return this
         * @throws InvalidValueException if it is no such value
         */
        public Builder creditsPosted(BigInteger value) {
            Values.u128(data, Layout.ACCOUNT_CREDITS_POSTED, "Account.credits_posted", value);
            return this;
        }

        /**
         * Sets the credits_posted.
         *
         * @param value 0 to 2^63 - 1
         * @return this
         * @throws InvalidValueException if it is no such value
         */
        public Builder creditsPosted(long value) {
            Values.u128(data, Layout.ACCOUNT_CREDITS_POSTED, "Account.credits_posted", value);
            return this;
        }

        /**
         * Sets the user_data_128.
         *
         * @param value u128
         * @return this
         * @throws InvalidValueException if it is no such value
         */
        public Builder userData128(BigInteger value) {
            Values.u128(data, Layout.ACCOUNT_USER_DATA_128, "Account.user_data_128", value);
            return this;
        }

        /**
         * Sets the user_data_128.
         *
         * @param value 0 to 2^63 - 1
         * @return this
         * @throws InvalidValueException if it is no such value
         */
        public Builder userData128(long value) {
            Values.u128(data, Layout.ACCOUNT_USER_DATA_128, "Account.user_data_128", value);
            return this;
        }

        /**
         * Sets the user_data_128.
         *
         * @param value u128
         * @return this
         * @throws InvalidValueException if it is no such value
         */
        public Builder userData128(UUID value) {
            Values.id(data, Layout.ACCOUNT_USER_DATA_128, "Account.user_data_128",
                    UInt128.asBytes(value));
            return this;
        }

        /**
         * Sets the user_data_128.
         *
         * @param value 16 bytes, the low one first
         * @return this
         * @throws InvalidValueException if it is no such value
         */
        public Builder userData128(byte[] value) {
            Values.id(data, Layout.ACCOUNT_USER_DATA_128, "Account.user_data_128", value);
            return this;
        }

        /**
         * Sets the user_data_64.
         *
         * @param value u64
         * @return this
         * @throws InvalidValueException if it is no such value
         */
        public Builder userData64(BigInteger value) {
            Values.u64(data, Layout.ACCOUNT_USER_DATA_64, "Account.user_data_64", value);
            return this;
        }

        /**
         * Sets the user_data_64.
         *
         * @param value 0 to 2^63 - 1
         * @return this
         * @throws InvalidValueException if it is no such value
         */
        public Builder userData64(long value) {
            Values.u64(data, Layout.ACCOUNT_USER_DATA_64, "Account.user_data_64", value);
            return this;
        }

        /**
         * Sets the user_data_32.
         *
         * @param value u32
         * @return this
         * @throws InvalidValueException if it is no such value
         */
        public Builder userData32(long value) {
            Values.u32(data, Layout.ACCOUNT_USER_DATA_32, "Account.user_data_32", value);
            return this;
        }

        /**
         * Sets the reserved.
         *
         * @param value u32
         * @return this
         * @throws InvalidValueException if it is no such value
         */
        public Builder reserved(long value) {
            Values.u32(data, Layout.ACCOUNT_RESERVED, "Account.reserved", value);
            return this;
        }

        /**
         * Sets the ledger.
         *
         * @param value u32
         * @return this
         * @throws InvalidValueException if it is no such value
         */
        public Builder ledger(long value) {
            Values.u32(data, Layout.ACCOUNT_LEDGER, "Account.ledger", value);
            return this;
        }

        /**
         * Sets the code.
         *
         * @param value u16
         * @return this
         * @throws InvalidValueException if it is no such value
         */
        public Builder code(int value) {
            Values.u16(data, Layout.ACCOUNT_CODE, "Account.code", value);
            return this;
        }

        /**
         * Sets the flags.
         *
         * @param value u16
         * @return this
         * @throws InvalidValueException if it is no such value
         */
        public Builder flags(int value) {
            Values.u16(data, Layout.ACCOUNT_FLAGS, "Account.flags", value);
            return this;
        }

        /**
         * Sets the timestamp.
         *
         * @param value u64 in nanoseconds
         * @return this
         * @throws InvalidValueException if it is no such value
         */
        public Builder timestamp(BigInteger value) {
            Values.u64(data, Layout.ACCOUNT_TIMESTAMP, "Account.timestamp", value);
            return this;
        }

        /**
         * Sets the timestamp.
         *
         * @param value 0 to 2^63 - 1 in nanoseconds
         * @return this
         * @throws InvalidValueException if it is no such value
         */
        public Builder timestamp(long value) {
            Values.u64(data, Layout.ACCOUNT_TIMESTAMP, "Account.timestamp", value);
            return this;
        }

        /**
         * Makes the account as it is by now.
         *
         * @return the account
         */
        public Account build() {
            return new Account(data.clone());
        }
    }
}
