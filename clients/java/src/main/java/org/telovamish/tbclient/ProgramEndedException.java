package org.telovamish.tbclient;

/**
 * The program {@code tbd} ended by a fault. The next call starts it again.
 */
public class ProgramEndedException extends ClientException {
    private static final long serialVersionUID = 1L;

    /** Its line. */
    private final String fault;
    /** The exit status. */
    private final int status;
    /** Whether the call may have sent its request. */
    private final boolean sent;

    ProgramEndedException(String fault, int status, boolean sent) {
        this(fault, status, sent, "");
    }

    ProgramEndedException(String fault, int status, boolean sent, String more) {
        super((fault.isEmpty() ? "the program ended" : fault) + " (status " + status + ")" + more);
        this.fault = fault;
        this.status = status;
        this.sent = sent;
    }

    /**
     * What the program said.
     *
     * @return its line, without {@code tbd: }
     */
    public String fault() {
        return fault;
    }

    /**
     * The name of the fault.
     *
     * @return the name that its line begins with, as {@code Full}
     */
    public String told() {
        return fault.split(":", 2)[0];
    }

    /**
     * The exit status.
     *
     * @return the number
     */
    public int status() {
        return status;
    }

    @Override
    public boolean mayHaveSent() {
        return sent;
    }
}
