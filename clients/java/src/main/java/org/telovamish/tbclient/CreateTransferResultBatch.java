package org.telovamish.tbclient;

import java.util.List;

/** The results of transfers that were not created, by rising index. */
public final class CreateTransferResultBatch extends ResultBatch<CreateTransferResult> {
    CreateTransferResultBatch(List<EventResult<CreateTransferResult>> results) {
        super(results);
    }

    /**
     * The results without those of a code.
     *
     * @param code as {@link CreateTransferResult#EXISTS}, if the same transfers are created
     *         again
     * @return the others, before the first of them
     */
    public CreateTransferResultBatch except(CreateTransferResult code) {
        return new CreateTransferResultBatch(Session.except(results(), code));
    }
}
