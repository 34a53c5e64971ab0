/**
 * A client of the ledger server, over only the Java platform.
 *
 * <p>A {@link org.telovamish.tbclient.Session} is a client that is registered. It numbers its
 * requests, sends one at a time, and sends the same bytes again until it has the reply; that is
 * what makes a retry harmless. It works over a {@link org.telovamish.tbclient.SocketTransport}, or
 * another {@link org.telovamish.tbclient.Transport}.
 *
 * <p>All exceptions are below {@link org.telovamish.tbclient.ClientException}. All classes may be
 * used by many threads at once, but the builders.
 */
package org.telovamish.tbclient;
