package org.telovamish.tbclient;

/** What became of an event: a {@link CreateAccountResult} or {@link CreateTransferResult}. */
public interface ResultCode {
    /**
     * The number in a frame.
     *
     * @return the number
     */
    int code();

    /**
     * The name, as TigerBeetle and the pages have it.
     *
     * @return the name
     */
    String label();
}
