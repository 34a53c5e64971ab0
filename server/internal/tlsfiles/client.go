package tlsfiles

import "crypto/tls"

// ReadOfClient is the TLS of a client: the file of certificates that the server's is tested by, and its
// own certificate and key, or "" for none.
func ReadOfClient(authority, certificate, key string) (*tls.Config, error) {
	all, err := readAuthorities(authority)
	if err != nil {
		return nil, err
	}
	its := &tls.Config{MinVersion: tls.VersionTLS12, RootCAs: all}
	if certificate == "" {
		return its, nil
	}
	pair, err := readPair(certificate, key)
	if err != nil {
		return nil, err
	}
	its.Certificates = []tls.Certificate{pair}
	return its, nil
}
