package org.telovamish.tbclient;

import java.util.OptionalLong;

/** The file is open in another process. */
public final class LockedException extends ProgramEndedException {
    private static final long serialVersionUID = 1L;

    /** The process, or 0. */
    private final long owner;

    LockedException(String fault, int status, boolean sent, Owner owner) {
        super(fault, status, sent, owner == null ? "" : ": " + owner);
        this.owner = owner == null ? 0 : owner.process();
    }

    /**
     * The process that has the file open.
     *
     * @return its number, if the system says so
     */
    public OptionalLong owner() {
        return owner == 0 ? OptionalLong.empty() : OptionalLong.of(owner);
    }
}
