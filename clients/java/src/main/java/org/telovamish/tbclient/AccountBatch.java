// Made by tools/tables.py --write from tools/ledger.json: edit that.

package org.telovamish.tbclient;

import java.math.BigInteger;
import java.util.List;
import java.util.UUID;

/** Accounts of a request or a reply. One at a time is read and set. */
public final class AccountBatch extends Batch {
    /**
     * A batch with room.
     *
     * @param capacity how many accounts it is made for; it grows
     */
    public AccountBatch(int capacity) {
        super(Layout.RECORD_SIZE, capacity);
    }

    static AccountBatch of(List<Account> records) {
        AccountBatch it = new AccountBatch(records.size());
        records.forEach(it::add);
        it.beforeFirst();
        return it;
    }

    /**
     * Adds an account, and is at it.
     *
     * @param record the account
     */
    public void add(Account record) {
        append(Values.given("account", record).data());
    }

    /**
     * The account that this is at.
     *
     * @return it
     */
    public Account get() {
        return new Account(item());
    }

    /**
     * The id.
     *
     * @return it, u128
     */
    public byte[] getId() {
        return Values.id(data(), place() + Layout.ACCOUNT_ID);
    }

    /**
     * Sets the id.
     *
     * @param value u128
     */
    public void setId(byte[] value) {
        Values.id(data(), place() + Layout.ACCOUNT_ID, "Account.id", value);
    }

    /**
     * Sets the id.
     *
     * @param value u128
     */
    public void setId(UUID value) {
        Values.id(data(), place() + Layout.ACCOUNT_ID, "Account.id", UInt128.asBytes(value));
    }

    /**
     * Sets the id.
     *
     * @param value u128
     */
    public void setId(BigInteger value) {
        Values.u128(data(), place() + Layout.ACCOUNT_ID, "Account.id", value);
    }

    /**
     * Sets the id.
     *
     * @param value u128
     */
    public void setId(long value) {
        Values.u128(data(), place() + Layout.ACCOUNT_ID, "Account.id", value);
    }

    /**
     * Sets the id.
     *
     * @param least the lower 64 bits
     * @param most the upper 64 bits
     */
    public void setId(long least, long most) {
        Values.bits(data(), place() + Layout.ACCOUNT_ID, least, most);
    }

    /**
     * The debits_pending.
     *
     * @return it, u128
     */
    public BigInteger getDebitsPending() {
        return Values.u128(data(), place() + Layout.ACCOUNT_DEBITS_PENDING);
    }

    /**
     * Sets the debits_pending.
     *
     * @param value u128
     */
    public void setDebitsPending(BigInteger value) {
        Values.u128(
                data(), place() + Layout.ACCOUNT_DEBITS_PENDING, "Account.debits_pending", value);
    }

    /**
     * Sets the debits_pending.
     *
     * @param value u128
     */
    public void setDebitsPending(long value) {
        Values.u128(
                data(), place() + Layout.ACCOUNT_DEBITS_PENDING, "Account.debits_pending", value);
    }

    /**
     * Sets the debits_pending.
     *
     * @param least the lower 64 bits
     * @param most the upper 64 bits
     */
    public void setDebitsPending(long least, long most) {
        Values.bits(data(), place() + Layout.ACCOUNT_DEBITS_PENDING, least, most);
    }

    /**
     * The debits_posted.
     *
     * @return it, u128
     */
    public BigInteger getDebitsPosted() {
        return Values.u128(data(), place() + Layout.ACCOUNT_DEBITS_POSTED);
    }

    /**
     * Sets the debits_posted.
     *
     * @param value u128
     */
    public void setDebitsPosted(BigInteger value) {
        Values.u128(data(), place() + Layout.ACCOUNT_DEBITS_POSTED, "Account.debits_posted", value);
    }

    /**
     * Sets the debits_posted.
     *
     * @param value u128
     */
    public void setDebitsPosted(long value) {
        Values.u128(data(), place() + Layout.ACCOUNT_DEBITS_POSTED, "Account.debits_posted", value);
    }

    /**
     * Sets the debits_posted.
     *
     * @param least the lower 64 bits
     * @param most the upper 64 bits
     */
    public void setDebitsPosted(long least, long most) {
        Values.bits(data(), place() + Layout.ACCOUNT_DEBITS_POSTED, least, most);
    }

    /**
     * The credits_pending.
     *
     * @return it, u128
     */
    public BigInteger getCreditsPending() {
        return Values.u128(data(), place() + Layout.ACCOUNT_CREDITS_PENDING);
    }

    /**
     * Sets the credits_pending.
     *
     * @param value u128
     */
    public void setCreditsPending(BigInteger value) {
        Values.u128(
                data(), place() + Layout.ACCOUNT_CREDITS_PENDING, "Account.credits_pending", value);
    }

    /**
     * Sets the credits_pending.
     *
     * @param value u128
     */
    public void setCreditsPending(long value) {
        Values.u128(
                data(), place() + Layout.ACCOUNT_CREDITS_PENDING, "Account.credits_pending", value);
    }

    /**
     * Sets the credits_pending.
     *
     * @param least the lower 64 bits
     * @param most the upper 64 bits
     */
    public void setCreditsPending(long least, long most) {
        Values.bits(data(), place() + Layout.ACCOUNT_CREDITS_PENDING, least, most);
    }

    /**
     * The credits_posted.
     *
     * @return it, u128
     */
    public BigInteger getCreditsPosted() {
        return Values.u128(data(), place() + Layout.ACCOUNT_CREDITS_POSTED);
    }

    /**
     * Sets the credits_posted.
     *
     * @param value u128
     */
    public void setCreditsPosted(BigInteger value) {
        Values.u128(
                data(), place() + Layout.ACCOUNT_CREDITS_POSTED, "Account.credits_posted", value);
    }

    /**
     * Sets the credits_posted.
     *
     * @param value u128
     */
    public void setCreditsPosted(long value) {
        Values.u128(
                data(), place() + Layout.ACCOUNT_CREDITS_POSTED, "Account.credits_posted", value);
    }

    /**
     * Sets the credits_posted.
     *
     * @param least the lower 64 bits
     * @param most the upper 64 bits
     */
    public void setCreditsPosted(long least, long most) {
        Values.bits(data(), place() + Layout.ACCOUNT_CREDITS_POSTED, least, most);
    }

    /**
     * The user_data_128.
     *
     * @return it, u128
     */
    public byte[] getUserData128() {
        return Values.id(data(), place() + Layout.ACCOUNT_USER_DATA_128);
    }

    /**
     * Sets the user_data_128.
     *
     * @param value u128
     */
    public void setUserData128(byte[] value) {
        Values.id(data(), place() + Layout.ACCOUNT_USER_DATA_128, "Account.user_data_128", value);
    }

    /**
     * Sets the user_data_128.
     *
     * @param value u128
     */
    public void setUserData128(UUID value) {
        Values.id(data(), place() + Layout.ACCOUNT_USER_DATA_128, "Account.user_data_128",
                UInt128.asBytes(value));
    }

    /**
     * Sets the user_data_128.
     *
     * @param value u128
     */
    public void setUserData128(BigInteger value) {
        Values.u128(data(), place() + Layout.ACCOUNT_USER_DATA_128, "Account.user_data_128", value);
    }

    /**
     * Sets the user_data_128.
     *
     * @param value u128
     */
    public void setUserData128(long value) {
        Values.u128(data(), place() + Layout.ACCOUNT_USER_DATA_128, "Account.user_data_128", value);
    }

    /**
     * Sets the user_data_128.
     *
     * @param least the lower 64 bits
     * @param most the upper 64 bits
     */
    public void setUserData128(long least, long most) {
        Values.bits(data(), place() + Layout.ACCOUNT_USER_DATA_128, least, most);
    }

    /**
     * The user_data_64.
     *
     * @return it, u64
     */
    public long getUserData64() {
        return Values.i64(data(), place() + Layout.ACCOUNT_USER_DATA_64);
    }

    /**
     * Sets the user_data_64.
     *
     * @param value u64
     */
    public void setUserData64(long value) {
        Values.putLong(data(), place() + Layout.ACCOUNT_USER_DATA_64, value);
    }

    /**
     * The user_data_32.
     *
     * @return it, u32
     */
    public int getUserData32() {
        return Values.i32(data(), place() + Layout.ACCOUNT_USER_DATA_32);
    }

    /**
     * Sets the user_data_32.
     *
     * @param value u32
     */
    public void setUserData32(int value) {
        Values.putInt(data(), place() + Layout.ACCOUNT_USER_DATA_32, value);
    }

    /**
     * The reserved.
     *
     * @return it, u32
     */
    public int getReserved() {
        return Values.i32(data(), place() + Layout.ACCOUNT_RESERVED);
    }

    /**
     * Sets the reserved.
     *
     * @param value u32
     */
    public void setReserved(int value) {
        Values.putInt(data(), place() + Layout.ACCOUNT_RESERVED, value);
    }

    /**
     * The ledger.
     *
     * @return it, u32
     */
    public int getLedger() {
        return Values.i32(data(), place() + Layout.ACCOUNT_LEDGER);
    }

    /**
     * Sets the ledger.
     *
     * @param value u32
     */
    public void setLedger(int value) {
        Values.putInt(data(), place() + Layout.ACCOUNT_LEDGER, value);
    }

    /**
     * The code.
     *
     * @return it, u16
     */
    public int getCode() {
        return Values.u16(data(), place() + Layout.ACCOUNT_CODE);
    }

    /**
     * Sets the code.
     *
     * @param value u16
     */
    public void setCode(int value) {
        Values.u16(data(), place() + Layout.ACCOUNT_CODE, "Account.code", value);
    }

    /**
     * The flags.
     *
     * @return it, u16
     */
    public int getFlags() {
        return Values.u16(data(), place() + Layout.ACCOUNT_FLAGS);
    }

    /**
     * Sets the flags.
     *
     * @param value u16
     */
    public void setFlags(int value) {
        Values.u16(data(), place() + Layout.ACCOUNT_FLAGS, "Account.flags", value);
    }

    /**
     * The timestamp.
     *
     * @return it, u64 in nanoseconds
     */
    public long getTimestamp() {
        return Values.i64(data(), place() + Layout.ACCOUNT_TIMESTAMP);
    }

    /**
     * Sets the timestamp.
     *
     * @param value u64 in nanoseconds
     */
    public void setTimestamp(long value) {
        Values.putLong(data(), place() + Layout.ACCOUNT_TIMESTAMP, value);
    }
}
