package org.telovamish.tbclient;

import java.io.IOException;
import java.io.InputStream;
import java.nio.ByteBuffer;
import java.security.GeneralSecurityException;
import java.security.KeyStore;
import javax.net.ssl.KeyManagerFactory;
import javax.net.ssl.SSLContext;
import javax.net.ssl.SSLEngine;
import javax.net.ssl.SSLParameters;
import javax.net.ssl.TrustManagerFactory;

/**
 * Has Java load its classes of TLS, by an agreement within memory. The kit's timeouts of a second
 * then measure the client, and not that.
 */
final class WarmTls {
    private static final String STORE = "/warm.p12"; // by build.sh
    private static final char[] PASSWORD = "warming".toCharArray();
    private static final int STEPS = 100; // more than an agreement takes

    private WarmTls() {}

    /** Does it, if the key that it takes is there. */
    static void up() {
        try (InputStream store = WarmTls.class.getResourceAsStream(STORE)) {
            if (store != null) {
                agree(context(store));
            }
        } catch (IOException | GeneralSecurityException why) {
            throw new IllegalStateException(why);
        }
    }

    private static SSLContext context(InputStream store)
            throws IOException, GeneralSecurityException {
        KeyStore keys = KeyStore.getInstance("PKCS12");
        keys.load(store, PASSWORD);
        KeyStore trusted = KeyStore.getInstance("PKCS12");
        trusted.load(null, null);
        trusted.setCertificateEntry("warm", keys.getCertificate("warm"));
        KeyManagerFactory own =
                KeyManagerFactory.getInstance(KeyManagerFactory.getDefaultAlgorithm());
        own.init(keys, PASSWORD);
        TrustManagerFactory trust =
                TrustManagerFactory.getInstance(TrustManagerFactory.getDefaultAlgorithm());
        trust.init(trusted);
        SSLContext context = SSLContext.getInstance("TLS");
        context.init(own.getKeyManagers(), trust.getTrustManagers(), null);
        return context;
    }

    private static void agree(SSLContext context) throws IOException {
        SSLEngine client = context.createSSLEngine("localhost", 1);
        client.setUseClientMode(true);
        SSLParameters parameters = client.getSSLParameters();
        parameters.setEndpointIdentificationAlgorithm("HTTPS");
        client.setSSLParameters(parameters);
        SSLEngine server = context.createSSLEngine();
        server.setUseClientMode(false);
        client.beginHandshake();
        server.beginHandshake();
        ByteBuffer sent = ByteBuffer.allocate(1 << 16);
        ByteBuffer said = ByteBuffer.allocate(1 << 16);
        for (int step = 0; step < STEPS; step++) {
            step(client, said, sent);
            step(server, sent, said);
        }
    }

    private static void step(SSLEngine engine, ByteBuffer in, ByteBuffer out) throws IOException {
        switch (engine.getHandshakeStatus()) {
            case NEED_WRAP:
                engine.wrap(ByteBuffer.allocate(0), out);
                break;
            case NEED_TASK:
                engine.getDelegatedTask().run();
                break;
            case NEED_UNWRAP:
            case NEED_UNWRAP_AGAIN:
                engine.unwrap(in.flip(), ByteBuffer.allocate(1 << 16));
                in.compact();
                break;
            default:
        }
    }
}
