// Package tlsfiles reads the files of a host's TLS: its certificate, and who signs those of clients.
package tlsfiles

import (
	"crypto/tls"
	"crypto/x509"
	"encoding/pem"
	"strings"

	"telovamish.org/server/internal/access"
	"telovamish.org/server/internal/config"
	"telovamish.org/server/internal/report"
)

// Read is the TLS of the options, or nil if TCP is plain.
func Read(c *config.Config) (*tls.Config, error) {
	if !c.HasTLS() {
		return nil, nil
	}
	pair, err := readPair(c.Certificate, c.Key)
	if err != nil {
		return nil, err
	}
	its := &tls.Config{Certificates: []tls.Certificate{pair}, MinVersion: tls.VersionTLS12}
	if c.ClientCA == "" {
		return its, nil
	}
	if its.ClientCAs, err = readAuthorities(c.ClientCA); err != nil {
		return nil, err
	}
	its.ClientAuth = clientAuth
	return its, nil
}

func readAuthorities(name string) (*x509.CertPool, error) {
	text, err := access.ReadFile(name)
	if err != nil {
		return nil, err
	}
	all := x509.NewCertPool()
	if !all.AppendCertsFromPEM(text) {
		return nil, report.End(1, "%s: no certificate or crl found", name)
	}
	return all, nil
}

func readPair(certificate, key string) (tls.Certificate, error) {
	first, err := access.ReadFile(certificate)
	if err != nil {
		return tls.Certificate{}, err
	}
	second, err := access.ReadFile(key)
	if err != nil {
		return tls.Certificate{}, err
	}
	if isEncrypted(second) {
		return tls.Certificate{}, report.End(1, "%s: the key has a passphrase", key)
	}
	pair, err := tls.X509KeyPair(first, second)
	if err != nil {
		return pair, report.End(1, "%s and %s: %s", certificate, key, strings.TrimPrefix(err.Error(), "tls: "))
	}
	return pair, nil
}

// isEncrypted reports whether a key has a passphrase, which nobody can be asked for.
func isEncrypted(key []byte) bool {
	for block, rest := pem.Decode(key); block != nil; block, rest = pem.Decode(rest) {
		if block.Type == "ENCRYPTED PRIVATE KEY" || strings.Contains(block.Headers["Proc-Type"], "ENCRYPTED") {
			return true
		}
	}
	return false
}

// Why is why a client did not agree on TLS, in words.
func Why(err error) string {
	text := err.Error()
	if strings.Contains(text, "does not look like a TLS handshake") {
		return "wrong version number"
	}
	return strings.TrimPrefix(strings.TrimPrefix(text, "remote error: "), "tls: ")
}
