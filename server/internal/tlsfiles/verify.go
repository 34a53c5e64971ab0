//go:build !go1.23

package tlsfiles

import (
	"crypto/tls"
	"crypto/x509"
	"errors"
	_ "unsafe" // for go:linkname
)

// The package tls of Go 1.19 sends bad_certificate for each fault of a client's certificate, and a client
// would not know whether to renew its own or to ask another authority. So the certificate is verified when
// TLS was agreed on, and the alert that says why goes out here.
const clientAuth = tls.RequestClientCert

// Alerts of TLS.
const (
	handshakeFailure    = 40
	badCertificate      = 42
	certificateExpired  = 45
	unknownAuthority    = 48
	certificateRequired = 116
)

//go:linkname sendAlert crypto/tls.(*Conn).sendAlert
func sendAlert(c *tls.Conn, alert uint8) error

// Verify verifies the certificate of a client that agreed on TLS. The client gets the reason why it is
// refused.
func Verify(c *tls.Conn, its *tls.Config) error {
	if its.ClientCAs == nil {
		return nil
	}
	state := c.ConnectionState()
	if len(state.PeerCertificates) == 0 {
		alert := uint8(certificateRequired)
		if state.Version < tls.VersionTLS13 { // which has no such alert
			alert = handshakeFailure
		}
		sendAlert(c, alert)
		return errors.New("peer did not return a certificate")
	}
	options := x509.VerifyOptions{
		Roots:         its.ClientCAs,
		Intermediates: x509.NewCertPool(),
		KeyUsages:     []x509.ExtKeyUsage{x509.ExtKeyUsageClientAuth},
	}
	for _, it := range state.PeerCertificates[1:] {
		options.Intermediates.AddCert(it)
	}
	_, err := state.PeerCertificates[0].Verify(options)
	if err == nil {
		return nil
	}
	alert, why := fault(err)
	sendAlert(c, alert)
	return why
}

// fault is the alert of a certificate's fault, and its words.
func fault(err error) (uint8, error) {
	var authority x509.UnknownAuthorityError
	var invalid x509.CertificateInvalidError
	switch {
	case errors.As(err, &authority):
		return unknownAuthority, errors.New("unable to get local issuer certificate")
	case errors.As(err, &invalid) && invalid.Reason == x509.Expired:
		return certificateExpired, errors.New("certificate has expired")
	}
	return badCertificate, err
}
