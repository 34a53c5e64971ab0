// Made by tools/tables.py --write from tools/ledger.json: edit that.

package org.telovamish.tbclient;

import java.math.BigInteger;
import java.util.Arrays;
import java.util.List;
import java.util.UUID;

/**
 * A transfer: an amount that goes from one account to another.
 *
 * <p>It never changes. A field that is not set is 0. Numbers of 128 and 64 bits are
 * {@link BigInteger}; the builder refuses, by the field's name, what is out of range.
 */
public final class Transfer {
    private final byte[] data; // as a frame has it

    Transfer(byte[] data) {
        this.data = data;
    }

    /**
     * Begins a transfer of which each field is 0.
     *
     * @return its builder
     */
    public static Builder builder() {
        return new Builder();
    }

    /**
     * Reads a transfer.
     *
     * @param data its 128 bytes, as a frame has them
     * @return the transfer
     * @throws InvalidValueException where there are fewer bytes, or more
     */
    public static Transfer fromBytes(byte[] data) {
        return new Transfer(Values.record("Transfer", data));
    }

    /**
     * Its bytes.
     *
     * @return 128 bytes, as a frame has them: a copy
     */
    public byte[] toBytes() {
        return data.clone();
    }

    /** The bytes themselves, to be copied and not to be changed. */
    byte[] data() {
        return data;
    }

    /**
     * The id.
     *
     * @return it, u128
     */
    public BigInteger id() {
        return Values.u128(data, Layout.TRANSFER_ID);
    }

    /**
     * The debit_account_id.
     *
     * @return it, u128
     */
    public BigInteger debitAccountId() {
        return Values.u128(data, Layout.TRANSFER_DEBIT_ACCOUNT_ID);
    }

    /**
     * The credit_account_id.
     *
     * @return it, u128
     */
    public BigInteger creditAccountId() {
        return Values.u128(data, Layout.TRANSFER_CREDIT_ACCOUNT_ID);
    }

    /**
     * The amount.
     *
     * @return it, u128
     */
    public BigInteger amount() {
        return Values.u128(data, Layout.TRANSFER_AMOUNT);
    }

    /**
     * The pending_id.
     *
     * @return it, u128
     */
    public BigInteger pendingId() {
        return Values.u128(data, Layout.TRANSFER_PENDING_ID);
    }

    /**
     * The user_data_128.
     *
     * @return it, u128
     */
    public BigInteger userData128() {
        return Values.u128(data, Layout.TRANSFER_USER_DATA_128);
    }

    /**
     * The user_data_64.
     *
     * @return it, u64
     */
    public BigInteger userData64() {
        return Values.u64(data, Layout.TRANSFER_USER_DATA_64);
    }

    /**
     * The user_data_32.
     *
     * @return it, u32
     */
    public long userData32() {
        return Values.u32(data, Layout.TRANSFER_USER_DATA_32);
    }

    /**
     * The timeout.
     *
     * @return it, u32 in seconds
     */
    public long timeout() {
        return Values.u32(data, Layout.TRANSFER_TIMEOUT);
    }

    /**
     * The ledger.
     *
     * @return it, u32
     */
    public long ledger() {
        return Values.u32(data, Layout.TRANSFER_LEDGER);
    }

    /**
     * The code.
     *
     * @return it, u16
     */
    public int code() {
        return Values.u16(data, Layout.TRANSFER_CODE);
    }

    /**
     * The flags.
     *
     * @return it, u16
     */
    public int flags() {
        return Values.u16(data, Layout.TRANSFER_FLAGS);
    }

    /**
     * The names of its flags, in the order of their bits.
     *
     * @return the names, as {@link TransferFlags} has them
     */
    public List<String> flagNames() {
        return TransferFlags.names(flags());
    }

    /**
     * The timestamp.
     *
     * @return it, u64 in nanoseconds
     */
    public BigInteger timestamp() {
        return Values.u64(data, Layout.TRANSFER_TIMESTAMP);
    }

    @Override
    public boolean equals(Object other) {
        return other instanceof Transfer && Arrays.equals(data, ((Transfer) other).data);
    }

    @Override
    public int hashCode() {
        return Arrays.hashCode(data);
    }

    @Override
    public String toString() {
        return "Transfer{"
                + "id=" + id() + ", debit_account_id=" + debitAccountId()
                + ", credit_account_id=" + creditAccountId() + ", amount=" + amount()
                + ", pending_id=" + pendingId() + ", user_data_128=" + userData128()
                + ", user_data_64=" + userData64() + ", user_data_32=" + userData32()
                + ", timeout=" + timeout() + ", ledger=" + ledger() + ", code=" + code()
                + ", flags=" + flagNames() + ", timestamp=" + timestamp() + "}";
    }

    /** Makes a transfer. One thread at a time may use it. */
    public static final class Builder {
        private final byte[] data = new byte[Layout.RECORD_SIZE];

        private Builder() {}

        /**
         * Sets the id.
         *
         * @param value u128
         * @return this
         * @throws InvalidValueException if it is no such value
         */
        public Builder id(BigInteger value) {
            Values.u128(data, Layout.TRANSFER_ID, "Transfer.id", value);
            return this;
        }

        /**
         * Sets the id.
         *
         * @param value 0 to 2^63 - 1
         * @return this
         * @throws InvalidValueException if it is no such value
         */
        public Builder id(long value) {
            Values.u128(data, Layout.TRANSFER_ID, "Transfer.id", value);
            return this;
        }

        /**
         * Sets the id.
         *
         * @param value u128
         * @return this
         * @throws InvalidValueException if it is no such value
         */
        public Builder id(UUID value) {
            Values.id(data, Layout.TRANSFER_ID, "Transfer.id", UInt128.asBytes(value));
            return this;
        }

        /**
         * Sets the id.
         *
         * @param value 16 bytes, the low one first
         * @return this
         * @throws InvalidValueException if it is no such value
         */
        public Builder id(byte[] value) {
            Values.id(data, Layout.TRANSFER_ID, "Transfer.id", value);
            return this;
        }

        /**
         * Sets the debit_account_id.
         *
         * @param value u128
         * @return this
         * @throws InvalidValueException if it is no such value
         */
        public Builder debitAccountId(BigInteger value) {
            Values.u128(data, Layout.TRANSFER_DEBIT_ACCOUNT_ID, "Transfer.debit_account_id", value);
            return this;
        }

        /**
         * Sets the debit_account_id.
         *
         * @param value 0 to 2^63 - 1
         * @return this
         * @throws InvalidValueException if it is no such value
         */
        public Builder debitAccountId(long value) {
            Values.u128(data, Layout.TRANSFER_DEBIT_ACCOUNT_ID, "Transfer.debit_account_id", value);
            return this;
        }

        /**
         * Sets the debit_account_id.
         *
         * @param value u128
         * @return this
         * @throws InvalidValueException if it is no such value
         */
        public Builder debitAccountId(UUID value) {
            Values.id(data, Layout.TRANSFER_DEBIT_ACCOUNT_ID, "Transfer.debit_account_id",
                    UInt128.asBytes(value));
            return this;
        }

        /**
         * Sets the debit_account_id.
         *
         * @param value 16 bytes, the low one first
         * @return this
         * @throws InvalidValueException if it is no such value
         */
        public Builder debitAccountId(byte[] value) {
            Values.id(data, Layout.TRANSFER_DEBIT_ACCOUNT_ID, "Transfer.debit_account_id", value);
            return this;
        }

        /**
         * Sets the credit_account_id.
         *
         * @param value u128
         * @return this
         * @throws InvalidValueException if it is no such value
         */
        public Builder creditAccountId(BigInteger value) {
            Values.u128(
                    data, Layout.TRANSFER_CREDIT_ACCOUNT_ID, "Transfer.credit_account_id", value);
            return this;
        }

        /**
         * Sets the credit_account_id.
         *
         * @param value 0 to 2^63 - 1
         * @return this
         * @throws InvalidValueException if it is no such value
         */
        public Builder creditAccountId(long value) {
            Values.u128(
                    data, Layout.TRANSFER_CREDIT_ACCOUNT_ID, "Transfer.credit_account_id", value);
            return this;
        }

        /**
         * Sets the credit_account_id.
         *
         * @param value u128
         * @return this
         * @throws InvalidValueException if it is no such value
         */
        public Builder creditAccountId(UUID value) {
            Values.id(data, Layout.TRANSFER_CREDIT_ACCOUNT_ID, "Transfer.credit_account_id",
                    UInt128.asBytes(value));
            return this;
        }

        /**
         * Sets the credit_account_id.
         *
         * @param value 16 bytes, the low one first
         * @return this
         * @throws InvalidValueException if it is no such value
         */
        public Builder creditAccountId(byte[] value) {
            Values.id(data, Layout.TRANSFER_CREDIT_ACCOUNT_ID, "Transfer.credit_account_id", value);
            return this;
        }

        /**
         * Sets the amount.
         *
         * @param value u128
         * @return this
         * @throws InvalidValueException if it is no such value
         */
        public Builder amount(BigInteger value) {
            Values.u128(data, Layout.TRANSFER_AMOUNT, "Transfer.amount", value);
            return this;
        }

        /**
         * Sets the amount.
         *
         * @param value 0 to 2^63 - 1
         * @return this
         * @throws InvalidValueException if it is no such value
         */
        public Builder amount(long value) {
            Values.u128(data, Layout.TRANSFER_AMOUNT, "Transfer.amount", value);
            return this;
        }

        /**
         * Sets the pending_id.
         *
         * @param value u128
         * @return this
         * @throws InvalidValueException if it is no such value
         */
        public Builder pendingId(BigInteger value) {
            Values.u128(data, Layout.TRANSFER_PENDING_ID, "Transfer.pending_id", value);
            return this;
        }

        /**
         * Sets the pending_id.
         *
         * @param value 0 to 2^63 - 1
         * @return this
         * @throws InvalidValueException if it is no such value
         */
        public Builder pendingId(long value) {
            Values.u128(data, Layout.TRANSFER_PENDING_ID, "Transfer.pending_id", value);
            return this;
        }

        /**
         * Sets the pending_id.
         *
         * @param value u128
         * @return this
         * @throws InvalidValueException if it is no such value
         */
        public Builder pendingId(UUID value) {
            Values.id(data, Layout.TRANSFER_PENDING_ID, "Transfer.pending_id",
                    UInt128.asBytes(value));
            return this;
        }

        /**
         * Sets the pending_id.
         *
         * @param value 16 bytes, the low one first
         * @return this
         * @throws InvalidValueException if it is no such value
         */
        public Builder pendingId(byte[] value) {
            Values.id(data, Layout.TRANSFER_PENDING_ID, "Transfer.pending_id", value);
            return this;
        }

        /**
         * Sets the user_data_128.
         *
         * @param value u128
         * @return this
         * @throws InvalidValueException if it is no such value
         */
        public Builder userData128(BigInteger value) {
            Values.u128(data, Layout.TRANSFER_USER_DATA_128, "Transfer.user_data_128", value);
            return this;
        }

        /**
         * Sets the user_data_128.
         *
         * @param value 0 to 2^63 - 1
         * @return this
         * @throws InvalidValueException if it is no such value
         */
        public Builder userData128(long value) {
            Values.u128(data, Layout.TRANSFER_USER_DATA_128, "Transfer.user_data_128", value);
            return this;
        }

        /**
         * Sets the user_data_128.
         *
         * @param value u128
         * @return this
         * @throws InvalidValueException if it is no such value
         */
        public Builder userData128(UUID value) {
            Values.id(data, Layout.TRANSFER_USER_DATA_128, "Transfer.user_data_128",
                    UInt128.asBytes(value));
            return this;
        }

        /**
         * Sets the user_data_128.
         *
         * @param value 16 bytes, the low one first
         * @return this
         * @throws InvalidValueException if it is no such value
         */
        public Builder userData128(byte[] value) {
            Values.id(data, Layout.TRANSFER_USER_DATA_128, "Transfer.user_data_128", value);
            return this;
        }

        /**
         * Sets the user_data_64.
         *
         * @param value u64
         * @return this
         * @throws InvalidValueException if it is no such value
         */
        public Builder userData64(BigInteger value) {
            Values.u64(data, Layout.TRANSFER_USER_DATA_64, "Transfer.user_data_64", value);
            return this;
        }

        /**
         * Sets the user_data_64.
         *
         * @param value 0 to 2^63 - 1
         * @return this
         * @throws InvalidValueException if it is no such value
         */
        public Builder userData64(long value) {
            Values.u64(data, Layout.TRANSFER_USER_DATA_64, "Transfer.user_data_64", value);
            return this;
        }

        /**
         * Sets the user_data_32.
         *
         * @param value u32
         * @return this
         * @throws InvalidValueException if it is no such value
         */
        public Builder userData32(long value) {
            Values.u32(data, Layout.TRANSFER_USER_DATA_32, "Transfer.user_data_32", value);
            return this;
        }

        /**
         * Sets the timeout.
         *
         * @param value u32 in seconds
         * @return this
         * @throws InvalidValueException if it is no such value
         */
        public Builder timeout(long value) {
            Values.u32(data, Layout.TRANSFER_TIMEOUT, "Transfer.timeout", value);
            return this;
        }

        /**
         * Sets the ledger.
         *
         * @param value u32
         * @return this
         * @throws InvalidValueException if it is no such value
         */
        public Builder ledger(long value) {
            Values.u32(data, Layout.TRANSFER_LEDGER, "Transfer.ledger", value);
            return this;
        }

        /**
         * Sets the code.
         *
         * @param value u16
         * @return this
         * @throws InvalidValueException if it is no such value
         */
        public Builder code(int value) {
            Values.u16(data, Layout.TRANSFER_CODE, "Transfer.code", value);
            return this;
        }

        /**
         * Sets the flags.
         *
         * @param value u16
         * @return this
         * @throws InvalidValueException if it is no such value
         */
        public Builder flags(int value) {
            Values.u16(data, Layout.TRANSFER_FLAGS, "Transfer.flags", value);
            return this;
        }

        /**
         * Sets the timestamp.
         *
         * @param value u64 in nanoseconds
         * @return this
         * @throws InvalidValueException if it is no such value
         */
        public Builder timestamp(BigInteger value) {
            Values.u64(data, Layout.TRANSFER_TIMESTAMP, "Transfer.timestamp", value);
            return this;
        }

        /**
         * Sets the timestamp.
         *
         * @param value 0 to 2^63 - 1 in nanoseconds
         * @return this
         * @throws InvalidValueException if it is no such value
         */
        public Builder timestamp(long value) {
            Values.u64(data, Layout.TRANSFER_TIMESTAMP, "Transfer.timestamp", value);
            return this;
        }

        /**
         * Makes the transfer as it is by now.
         *
         * @return the transfer
         */
        public Transfer build() {
            return new Transfer(data.clone());
        }
    }
}
