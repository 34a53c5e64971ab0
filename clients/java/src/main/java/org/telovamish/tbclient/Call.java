package org.telovamish.tbclient;

import java.util.concurrent.CompletableFuture;

/** What one caller asks for: its list as bytes, and the future that gets its answer. */
final class Call {
    final Operation operation;
    final byte[] body;
    final int count;
    final CompletableFuture<Answer> future = new CompletableFuture<>();
    boolean isSent; // of which the pool's lock is needed, as of isLeft
    boolean isLeft; // the caller waits no longer

    Call(Operation operation, byte[] body) {
        this.operation = operation;
        this.body = body;
        count = body.length / Layout.requestItemSize(operation);
    }

    /** Whether the list ends in a chain that the next event would be joined to. */
    boolean isOpen() {
        return Joint.isCreate(operation) && count > 0 && Joint.isLinked(body, count - 1);
    }

    /** Whether a call may follow this one in a request that has this many items. */
    boolean mayJoin(Call next, int items) {
        boolean fits = items + next.count <= Layout.ITEMS_MAX;
        return fits && next.operation == operation && !isOpen();
    }
}
