package org.telovamish.tbclient;

import java.io.ByteArrayOutputStream;
import java.io.EOFException;
import java.io.IOException;
import java.io.InterruptedIOException;
import java.nio.ByteBuffer;
import javax.net.ssl.SSLContext;
import javax.net.ssl.SSLEngine;
import javax.net.ssl.SSLEngineResult;
import javax.net.ssl.SSLEngineResult.HandshakeStatus;
import javax.net.ssl.SSLException;
import javax.net.ssl.SSLParameters;

/** A connection over TLS. The server's certificate has to be of its host. */
final class TlsLink implements Link {
    private static final ByteBuffer NOTHING = ByteBuffer.allocate(0);

    private final PlainLink link;
    private final SSLEngine engine;
    private final ByteBuffer out; // what was wrapped, to be sent
    private final ByteArrayOutputStream flight = new ByteArrayOutputStream(); // TLS's own messages
    private ByteBuffer in; // what came, from its beginning to its position
    private ByteBuffer plain; // what was unwrapped, to be read
    private SSLEngineResult.Status last = SSLEngineResult.Status.OK; // of an unwrap

    private TlsLink(PlainLink link, SSLEngine engine) {
        this.link = link;
        this.engine = engine;
        out = ByteBuffer.allocate(engine.getSession().getPacketBufferSize());
        in = ByteBuffer.allocate(engine.getSession().getPacketBufferSize());
        plain = ByteBuffer.allocate(engine.getSession().getApplicationBufferSize()).flip();
    }

    /** Agrees on TLS over a connection, which is closed if that fails. */
    static TlsLink over(PlainLink link, SSLContext context, Address address, Deadline until)
            throws IOException {
        try {
            SSLEngine engine = context.createSSLEngine(address.host(), address.port());
            engine.setUseClientMode(true);
            SSLParameters parameters = engine.getSSLParameters();
            parameters.setEndpointIdentificationAlgorithm("HTTPS");
            engine.setSSLParameters(parameters);
            TlsLink it = new TlsLink(link, engine);
            it.agree(until);
            return it;
        } catch (IOException | RuntimeException why) {
            link.close();
            throw why;
        }
    }

    private void agree(Deadline until) throws IOException {
        engine.beginHandshake();
        try {
            while (step(until)) {
                until.test(); // a server may send on and on what agrees on nothing
            }
        } catch (IOException why) {
            tell();
            throw why;
        }
    }

    /** One step of the agreeing. Returns whether there is another. */
    private boolean step(Deadline until) throws IOException {
        switch (engine.getHandshakeStatus()) {
            case NEED_WRAP:
                gather(until);
                return true;
            case NEED_TASK:
                for (Runnable it = engine.getDelegatedTask(); it != null;) {
                    it.run();
                    it = engine.getDelegatedTask();
                }
                return true;
            case NEED_UNWRAP:
            case NEED_UNWRAP_AGAIN:
                flush(until);
                if (unwrap() == SSLEngineResult.Status.CLOSED || isCut() && !link.read(in, until)) {
                    throw new EOFException("the connection was closed while TLS was agreed on");
                }
                return true;
            default:
                flush(until);
                return false;
        }
    }

    /**
     * Wraps what TLS itself has to say. It goes out in one write: a server that refuses this client
     * at the first message closes the connection, and a further write would lose its alert.
     */
    private void gather(Deadline until) throws IOException {
        out.clear();
        SSLEngineResult.Status status = engine.wrap(NOTHING.duplicate(), out).getStatus();
        flight.write(out.array(), 0, out.position());
        if (status == SSLEngineResult.Status.CLOSED) {
            flush(until);
            throw new EOFException("TLS has ended");
        }
    }

    private void flush(Deadline until) throws IOException {
        if (flight.size() == 0) {
            return;
        }
        ByteBuffer all = ByteBuffer.wrap(flight.toByteArray());
        flight.reset();
        try {
            link.write(all, until);
        } catch (InterruptedIOException why) {
            throw why;
        } catch (IOException broke) {
            hear(until);
            throw broke;
        }
    }

    /**
     * Throws the alert that the server sent before it closed the connection, if there is one.
     */
    private void hear(Deadline until) throws SSLException {
        try {
            while (unwrap() != SSLEngineResult.Status.CLOSED && link.read(in, until)) {
                until.test();
            }
        } catch (SSLException alert) {
            throw alert;
        } catch (IOException gone) {
            // nothing more came
        }
    }

    /** Whether the last unwrap needs more bytes. */
    private boolean isCut() {
        return last == SSLEngineResult.Status.BUFFER_UNDERFLOW;
    }

    /** Unwraps one record of what came, if one is there. */
    private SSLEngineResult.Status unwrap() throws IOException {
        in.flip();
        plain.compact();
        try {
            last = engine.unwrap(in, plain).getStatus();
        } finally {
            plain.flip();
            in.compact();
        }
        if (last == SSLEngineResult.Status.BUFFER_OVERFLOW) {
            plain = ByteBuffer.allocate(2 * plain.capacity()).put(plain).flip();
        }
        if (isCut() && !in.hasRemaining()) { // a record may be twice as long as most are
            in = ByteBuffer.allocate(2 * in.capacity()).put(in.flip());
        }
        return last;
    }

    /** Wraps and sends until nothing is left. */
    private void send(ByteBuffer data, Deadline until) throws IOException {
        do {
            out.clear();
            SSLEngineResult.Status status = engine.wrap(data, out).getStatus();
            link.write(out.flip(), until);
            if (status == SSLEngineResult.Status.CLOSED) {
                throw new EOFException("TLS has ended");
            }
        } while (data.hasRemaining());
    }

    /** Does what TLS itself has to do between records. */
    private void settle(Deadline until) throws IOException {
        while (engine.getHandshakeStatus() == HandshakeStatus.NEED_TASK
                || engine.getHandshakeStatus() == HandshakeStatus.NEED_WRAP
                        && !engine.isOutboundDone()) {
            step(until);
        }
        flush(until);
    }

    @Override
    public boolean isLeft(Deadline until) {
        try {
            while (!plain.hasRemaining()) {
                SSLEngineResult.Status status = unwrap();
                settle(Deadline.in(java.time.Duration.ZERO));
                if (status == SSLEngineResult.Status.CLOSED) {
                    return true;
                }
                if (status == SSLEngineResult.Status.BUFFER_UNDERFLOW) {
                    int count = link.tryRead(in); // it may be TLS's own, as a ticket
                    if (count <= 0) {
                        return count < 0;
                    }
                }
                until.test();
            }
            return true;
        } catch (IOException broke) {
            return true;
        }
    }

    @Override
    public void write(ByteBuffer data, Deadline until) throws IOException {
        send(data, until);
    }

    @Override
    public boolean read(ByteBuffer into, Deadline until) throws IOException {
        while (!plain.hasRemaining()) {
            SSLEngineResult.Status status = unwrap();
            settle(until);
            if (plain.hasRemaining()) {
                break;
            }
            if (status == SSLEngineResult.Status.CLOSED || isCut() && !link.read(in, until)) {
                return false;
            }
            until.test(); // a server may send on and on records without data
        }
        int count = Math.min(plain.remaining(), into.remaining());
        into.put(into.position(), plain, plain.position(), count);
        into.position(into.position() + count);
        plain.position(plain.position() + count);
        return true;
    }

    /** Tells the server of an end or a fault, if that goes at once. */
    private void tell() {
        try {
            engine.closeOutbound();
            while (!engine.isOutboundDone()) {
                out.clear();
                if (engine.wrap(NOTHING.duplicate(), out).bytesProduced() == 0) {
                    break;
                }
                link.tryWrite(out.flip());
            }
        } catch (IOException why) {
            // it is gone either way
        }
    }

    @Override
    public void close() {
        tell();
        link.close();
    }
}
