package org.telovamish.tbclient;

/**
 * The result of an event that was not accepted.
 *
 * @param index the event's place in its batch, from 0
 * @param result why it was not accepted
 * @param <R> {@link CreateAccountResult} or {@link CreateTransferResult}
 */
public record EventResult<R extends ResultCode>(int index, R result) {}
