package org.telovamish.tbclient;

import java.io.IOException;
import java.net.ConnectException;
import java.net.InetSocketAddress;
import java.net.SocketAddress;
import java.net.StandardProtocolFamily;
import java.net.StandardSocketOptions;
import java.nio.ByteBuffer;
import java.nio.channels.SelectionKey;
import java.nio.channels.Selector;
import java.nio.channels.SocketChannel;
import java.util.concurrent.TimeUnit;

/** A connection over a channel that does not block, so that each wait has its deadline. */
final class PlainLink implements Link {
    private static final long WAIT_MAX = TimeUnit.HOURS.toMillis(1);
    private static final int PIECE = 1 << 16; // bytes: as many as Java keeps for each thread

    private final SocketChannel channel;
    private final Selector selector;
    private final SelectionKey key;

    private PlainLink(SocketChannel channel, Selector selector) throws IOException {
        this.channel = channel;
        this.selector = selector;
        this.key = channel.register(selector, 0);
    }

    static PlainLink to(SocketAddress place, Deadline until) throws IOException {
        boolean isTcp = place instanceof InetSocketAddress;
        SocketChannel channel =
                isTcp ? SocketChannel.open() : SocketChannel.open(StandardProtocolFamily.UNIX);
        Selector selector = null;
        try {
            channel.configureBlocking(false);
            if (isTcp) {
                channel.setOption(StandardSocketOptions.TCP_NODELAY, true);
            }
            selector = Selector.open();
            PlainLink link = new PlainLink(channel, selector);
            link.connect(place, isTcp, until);
            return link;
        } catch (IOException | RuntimeException why) {
            channel.close();
            if (selector != null) {
                selector.close();
            }
            throw why;
        }
    }

    private void connect(SocketAddress place, boolean isTcp, Deadline until) throws IOException {
        boolean is = channel.connect(place);
        if (!is && !isTcp) { // no such connecting goes on in the background
            throw new ConnectException("the server has too many that wait for it");
        }
        while (!is) {
            await(SelectionKey.OP_CONNECT, until);
            is = channel.finishConnect();
        }
    }

    @Override
    public boolean isLeft(Deadline until) {
        try {
            return tryRead(ByteBuffer.allocate(1)) != 0;
        } catch (IOException broke) {
            return true;
        }
    }

    /** Reads what is there by now: 0 bytes if nothing is, -1 if the server closed it. */
    int tryRead(ByteBuffer into) throws IOException {
        ByteBuffer piece = into.slice(into.position(), Math.min(into.remaining(), PIECE));
        int count = channel.read(piece);
        into.position(into.position() + piece.position());
        return count;
    }

    /** Writes what goes by now, or the beginning of it. */
    void tryWrite(ByteBuffer data) throws IOException {
        ByteBuffer piece = data.slice(data.position(), Math.min(data.remaining(), PIECE));
        channel.write(piece);
        data.position(data.position() + piece.position());
    }

    @Override
    public void write(ByteBuffer data, Deadline until) throws IOException {
        tryWrite(data);
        while (data.hasRemaining()) {
            await(SelectionKey.OP_WRITE, until);
            tryWrite(data);
        }
    }

    @Override
    public boolean read(ByteBuffer into, Deadline until) throws IOException {
        int count = tryRead(into);
        while (count == 0) {
            await(SelectionKey.OP_READ, until);
            count = tryRead(into);
        }
        return count > 0;
    }

    private void await(int operation, Deadline until) throws IOException {
        key.interestOps(operation);
        while (true) {
            until.test();
            long left = Math.max(until.left(), 0);
            selector.select(Math.min(TimeUnit.NANOSECONDS.toMillis(left) + 1, WAIT_MAX));
            if (!selector.selectedKeys().isEmpty()) {
                selector.selectedKeys().clear();
                return;
            }
        }
    }

    @Override
    public void close() {
        try (channel) {
            selector.close();
        } catch (IOException why) {
            // it is gone either way
        }
    }
}
