// Made by tools/tables.py --write from tools/ledger.json: edit that.

package org.telovamish.tbclient;

import java.math.BigInteger;
import java.util.List;
import java.util.UUID;

/** Transfers of a request or a reply. One at a time is read and set. */
public final class TransferBatch extends Batch {
    /**
     * A batch with room.
     *
     * @param capacity how many transfers it is made for; it grows
     */
    public TransferBatch(int capacity) {
        super(Layout.RECORD_SIZE, capacity);
    }

    static TransferBatch of(List<Transfer> records) {
        TransferBatch it = new TransferBatch(records.size());
        records.forEach(it::add);
        it.beforeFirst();
        return it;
    }

    /**
     * Adds a transfer, and is at it.
     *
     * @param record the transfer
     */
    public void add(Transfer record) {
        append(Values.given("transfer", record).data());
    }

    /**
     * The transfer that this is at.
     *
     * @return it
     */
    public Transfer get() {
        return new Transfer(item());
    }

    /**
     * The id.
     *
     * @return it, u128
     */
    public byte[] getId() {
        return Values.id(data(), place() + Layout.TRANSFER_ID);
    }

    /**
     * Sets the id.
     *
     * @param value u128
     */
    public void setId(byte[] value) {
        Values.id(data(), place() + Layout.TRANSFER_ID, "Transfer.id", value);
    }

    /**
     * Sets the id.
     *
     * @param value u128
     */
    public void setId(UUID value) {
        Values.id(data(), place() + Layout.TRANSFER_ID, "Transfer.id", UInt128.asBytes(value));
    }

    /**
     * Sets the id.
     *
     * @param value u128
     */
    public void setId(BigInteger value) {
        Values.u128(data(), place() + Layout.TRANSFER_ID, "Transfer.id", value);
    }

    /**
     * Sets the id.
     *
     * @param value u128
     */
    public void setId(long value) {
        Values.u128(data(), place() + Layout.TRANSFER_ID, "Transfer.id", value);
    }

    /**
     * Sets the id.
     *
     * @param least the lower 64 bits
     * @param most the upper 64 bits
     */
    public void setId(long least, long most) {
        Values.bits(data(), place() + Layout.TRANSFER_ID, least, most);
    }

    /**
     * The debit_account_id.
     *
     * @return it, u128
     */
    public byte[] getDebitAccountId() {
        return Values.id(data(), place() + Layout.TRANSFER_DEBIT_ACCOUNT_ID);
    }

    /**
     * Sets the debit_account_id.
     *
     * @param value u128
     */
    public void setDebitAccountId(byte[] value) {
        Values.id(data(), place() + Layout.TRANSFER_DEBIT_ACCOUNT_ID, "Transfer.debit_account_id",
                value);
    }

    /**
     * Sets the debit_account_id.
     *
     * @param value u128
     */
    public void setDebitAccountId(UUID value) {
        Values.id(data(), place() + Layout.TRANSFER_DEBIT_ACCOUNT_ID, "Transfer.debit_account_id",
                UInt128.asBytes(value));
    }

    /**
     * Sets the debit_account_id.
     *
     * @param value u128
     */
    public void setDebitAccountId(BigInteger value) {
        Values.u128(data(), place() + Layout.TRANSFER_DEBIT_ACCOUNT_ID, "Transfer.debit_account_id",
                value);
    }

    /**
     * Sets the debit_account_id.
     *
     * @param value u128
     */
    public void setDebitAccountId(long value) {
        Values.u128(data(), place() + Layout.TRANSFER_DEBIT_ACCOUNT_ID, "Transfer.debit_account_id",
                value);
    }

    /**
     * Sets the debit_account_id.
     *
     * @param least the lower 64 bits
     * @param most the upper 64 bits
     */
    public void setDebitAccountId(long least, long most) {
        Values.bits(data(), place() + Layout.TRANSFER_DEBIT_ACCOUNT_ID, least, most);
    }

    /**
     * The credit_account_id.
     *
     * @return it, u128
     */
    public byte[] getCreditAccountId() {
        return Values.id(data(), place() + Layout.TRANSFER_CREDIT_ACCOUNT_ID);
    }

    /**
     * Sets the credit_account_id.
     *
     * @param value u128
     */
    public void setCreditAccountId(byte[] value) {
        Values.id(data(), place() + Layout.TRANSFER_CREDIT_ACCOUNT_ID, "Transfer.credit_account_id",
                value);
    }

    /**
     * Sets the credit_account_id.
     *
     * @param value u128
     */
    public void setCreditAccountId(UUID value) {
        Values.id(data(), place() + Layout.TRANSFER_CREDIT_ACCOUNT_ID, "Transfer.credit_account_id",
                UInt128.asBytes(value));
    }

    /**
     * Sets the credit_account_id.
     *
     * @param value u128
     */
    public void setCreditAccountId(BigInteger value) {
        Values.u128(data(), place() + Layout.TRANSFER_CREDIT_ACCOUNT_ID,
                "Transfer.credit_account_id", value);
    }

    /**
     * Sets the credit_account_id.
     *
     * @param value u128
     */
    public void setCreditAccountId(long value) {
        Values.u128(data(), place() + Layout.TRANSFER_CREDIT_ACCOUNT_ID,
                "Transfer.credit_account_id", value);
    }

    /**
     * Sets the credit_account_id.
     *
     * @param least the lower 64 bits
     * @param most the upper 64 bits
     */
    public void setCreditAccountId(long least, long most) {
        Values.bits(data(), place() + Layout.TRANSFER_CREDIT_ACCOUNT_ID, least, most);
    }

    /**
     * The amount.
     *
     * @return it, u128
     */
    public BigInteger getAmount() {
        return Values.u128(data(), place() + Layout.TRANSFER_AMOUNT);
    }

    /**
     * Sets the amount.
     *
     * @param value u128
     */
    public void setAmount(BigInteger value) {
        Values.u128(data(), place() + Layout.TRANSFER_AMOUNT, "Transfer.amount", value);
    }

    /**
     * Sets the amount.
     *
     * @param value u128
     */
    public void setAmount(long value) {
        Values.u128(data(), place() + Layout.TRANSFER_AMOUNT, "Transfer.amount", value);
    }

    /**
     * Sets the amount.
     *
     * @param least the lower 64 bits
     * @param most the upper 64 bits
     */
    public void setAmount(long least, long most) {
        Values.bits(data(), place() + Layout.TRANSFER_AMOUNT, least, most);
    }

    /**
     * The pending_id.
     *
     * @return it, u128
     */
    public byte[] getPendingId() {
        return Values.id(data(), place() + Layout.TRANSFER_PENDING_ID);
    }

    /**
     * Sets the pending_id.
     *
     * @param value u128
     */
    public void setPendingId(byte[] value) {
        Values.id(data(), place() + Layout.TRANSFER_PENDING_ID, "Transfer.pending_id", value);
    }

    /**
     * Sets the pending_id.
     *
     * @param value u128
     */
    public void setPendingId(UUID value) {
        Values.id(data(), place() + Layout.TRANSFER_PENDING_ID, "Transfer.pending_id",
                UInt128.asBytes(value));
    }

    /**
     * Sets the pending_id.
     *
     * @param value u128
     */
    public void setPendingId(BigInteger value) {
        Values.u128(data(), place() + Layout.TRANSFER_PENDING_ID, "Transfer.pending_id", value);
    }

    /**
     * Sets the pending_id.
     *
     * @param value u128
     */
    public void setPendingId(long value) {
        Values.u128(data(), place() + Layout.TRANSFER_PENDING_ID, "Transfer.pending_id", value);
    }

    /**
     * Sets the pending_id.
     *
     * @param least the lower 64 bits
     * @param most the upper 64 bits
     */
    public void setPendingId(long least, long most) {
        Values.bits(data(), place() + Layout.TRANSFER_PENDING_ID, least, most);
    }

    /**
     * The user_data_128.
     *
     * @return it, u128
     */
    public byte[] getUserData128() {
        return Values.id(data(), place() + Layout.TRANSFER_USER_DATA_128);
    }

    /**
     * Sets the user_data_128.
     *
     * @param value u128
     */
    public void setUserData128(byte[] value) {
        Values.id(data(), place() + Layout.TRANSFER_USER_DATA_128, "Transfer.user_data_128", value);
    }

    /**
     * Sets the user_data_128.
     *
     * @param value u128
     */
    public void setUserData128(UUID value) {
        Values.id(data(), place() + Layout.TRANSFER_USER_DATA_128, "Transfer.user_data_128",
                UInt128.asBytes(value));
    }

    /**
     * Sets the user_data_128.
     *
     * @param value u128
     */
    public void setUserData128(BigInteger value) {
        Values.u128(
                data(), place() + Layout.TRANSFER_USER_DATA_128, "Transfer.user_data_128", value);
    }

    /**
     * Sets the user_data_128.
     *
     * @param value u128
     */
    public void setUserData128(long value) {
        Values.u128(
                data(), place() + Layout.TRANSFER_USER_DATA_128, "Transfer.user_data_128", value);
    }

    /**
     * Sets the user_data_128.
     *
     * @param least the lower 64 bits
     * @param most the upper 64 bits
     */
    public void setUserData128(long least, long most) {
        Values.bits(data(), place() + Layout.TRANSFER_USER_DATA_128, least, most);
    }

    /**
     * The user_data_64.
     *
     * @return it, u64
     */
    public long getUserData64() {
        return Values.i64(data(), place() + Layout.TRANSFER_USER_DATA_64);
    }

    /**
     * Sets the user_data_64.
     *
     * @param value u64
     */
    public void setUserData64(long value) {
        Values.putLong(data(), place() + Layout.TRANSFER_USER_DATA_64, value);
    }

    /**
     * The user_data_32.
     *
     * @return it, u32
     */
    public int getUserData32() {
        return Values.i32(data(), place() + Layout.TRANSFER_USER_DATA_32);
    }

    /**
     * Sets the user_data_32.
     *
     * @param value u32
     */
    public void setUserData32(int value) {
        Values.putInt(data(), place() + Layout.TRANSFER_USER_DATA_32, value);
    }

    /**
     * The timeout.
     *
     * @return it, u32 in seconds
     */
    public int getTimeout() {
        return Values.i32(data(), place() + Layout.TRANSFER_TIMEOUT);
    }

    /**
     * Sets the timeout.
     *
     * @param value u32 in seconds
     */
    public void setTimeout(int value) {
        Values.putInt(data(), place() + Layout.TRANSFER_TIMEOUT, value);
    }

    /**
     * The ledger.
     *
     * @return it, u32
     */
    public int getLedger() {
        return Values.i32(data(), place() + Layout.TRANSFER_LEDGER);
    }

    /**
     * Sets the ledger.
     *
     * @param value u32
     */
    public void setLedger(int value) {
        Values.putInt(data(), place() + Layout.TRANSFER_LEDGER, value);
    }

    /**
     * The code.
     *
     * @return it, u16
     */
    public int getCode() {
        return Values.u16(data(), place() + Layout.TRANSFER_CODE);
    }

    /**
     * Sets the code.
     *
     * @param value u16
     */
    public void setCode(int value) {
        Values.u16(data(), place() + Layout.TRANSFER_CODE, "Transfer.code", value);
    }

    /**
     * The flags.
     *
     * @return it, u16
     */
    public int getFlags() {
        return Values.u16(data(), place() + Layout.TRANSFER_FLAGS);
    }

    /**
     * Sets the flags.
     *
     * @param value u16
     */
    public void setFlags(int value) {
        Values.u16(data(), place() + Layout.TRANSFER_FLAGS, "Transfer.flags", value);
    }

    /**
     * The timestamp.
     *
     * @return it, u64 in nanoseconds
     */
    public long getTimestamp() {
        return Values.i64(data(), place() + Layout.TRANSFER_TIMESTAMP);
    }

    /**
     * Sets the timestamp.
     *
     * @param value u64 in nanoseconds
     */
    public void setTimestamp(long value) {
        Values.putLong(data(), place() + Layout.TRANSFER_TIMESTAMP, value);
    }
}
