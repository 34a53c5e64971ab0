package org.telovamish.tbclient;

import java.util.List;

/**
 * The results of events that were not accepted, by rising index. One at a time is read.
 *
 * @param <R> {@link CreateAccountResult} or {@link CreateTransferResult}
 */
public abstract class ResultBatch<R extends ResultCode> {
    private final List<EventResult<R>> results;
    private int at = -1; // the result that is read

    ResultBatch(List<EventResult<R>> results) {
        this.results = List.copyOf(results);
    }

    final List<EventResult<R>> results() {
        return results;
    }

    /**
     * Moves to the next result.
     *
     * @return whether there is one
     */
    public final boolean next() {
        at = Math.min(at + 1, results.size());
        return at < results.size();
    }

    /** Moves to before the first result. */
    public final void beforeFirst() {
        at = -1;
    }

    /**
     * How many results there are.
     *
     * @return their number
     */
    public final int getLength() {
        return results.size();
    }

    /**
     * The event's place in its batch.
     *
     * @return from 0
     */
    public final int getIndex() {
        return here().index();
    }

    /**
     * Why it was not accepted.
     *
     * @return the result
     */
    public final R getResult() {
        return here().result();
    }

    private EventResult<R> here() {
        if (at < 0 || at >= results.size()) {
            throw new IllegalStateException("the batch is at no result: call next");
        }
        return results.get(at);
    }
}
