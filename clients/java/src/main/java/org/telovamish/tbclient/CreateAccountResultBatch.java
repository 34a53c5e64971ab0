package org.telovamish.tbclient;

import java.util.List;

/** The results of accounts that were not created, by rising index. */
public final class CreateAccountResultBatch extends ResultBatch<CreateAccountResult> {
    CreateAccountResultBatch(List<EventResult<CreateAccountResult>> results) {
        super(results);
    }

    /**
     * The results without those of a code.
     *
     * @param code as {@link CreateAccountResult#EXISTS}, if the same accounts are created again
     * @return the others, before the first of them
     */
    public CreateAccountResultBatch except(CreateAccountResult code) {
        return new CreateAccountResultBatch(Session.except(results(), code));
    }
}
