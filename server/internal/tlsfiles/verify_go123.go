//go:build go1.23

package tlsfiles

import "crypto/tls"

const clientAuth = tls.RequireAndVerifyClientCert

// Verify does nothing: the package tls has verified the certificate, and sent the alert that says why.
func Verify(*tls.Conn, *tls.Config) error { return nil }
