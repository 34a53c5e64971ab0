package tlsfiles

import (
	"crypto/ecdsa"
	"crypto/elliptic"
	"crypto/rand"
	"crypto/tls"
	"crypto/x509"
	"crypto/x509/pkix"
	"encoding/pem"
	"math/big"
	"net"
	"os"
	"path/filepath"
	"strings"
	"syscall"
	"testing"
	"time"

	"telovamish.org/server/internal/config"
)

// authority signs certificates.
type authority struct {
	certificate *x509.Certificate
	key         *ecdsa.PrivateKey
	file        string
}

func newKey(t *testing.T) *ecdsa.PrivateKey {
	t.Helper()
	key, err := ecdsa.GenerateKey(elliptic.P256(), rand.Reader)
	if err != nil {
		t.Fatal(err)
	}
	return key
}

func written(t *testing.T, kind string, data []byte) string {
	t.Helper()
	file := filepath.Join(t.TempDir(), "it.pem")
	if err := os.WriteFile(file, pem.EncodeToMemory(&pem.Block{Type: kind, Bytes: data}), 0o600); err != nil {
		t.Fatal(err)
	}
	return file
}

func newAuthority(t *testing.T) *authority {
	t.Helper()
	key := newKey(t)
	it := &x509.Certificate{SerialNumber: big.NewInt(1), Subject: pkix.Name{CommonName: "authority"},
		NotAfter: time.Now().Add(time.Hour), IsCA: true, BasicConstraintsValid: true, KeyUsage: x509.KeyUsageCertSign}
	data, err := x509.CreateCertificate(rand.Reader, it, it, &key.PublicKey, key)
	if err != nil {
		t.Fatal(err)
	}
	certificate, err := x509.ParseCertificate(data)
	if err != nil {
		t.Fatal(err)
	}
	return &authority{certificate, key, written(t, "CERTIFICATE", data)}
}

// signs is a certificate of a name, for a use, until a time, and the files of it and its key.
func (a *authority) signs(t *testing.T, name string, use x509.ExtKeyUsage, until time.Time) (tls.Certificate, string, string) {
	t.Helper()
	key := newKey(t)
	it := &x509.Certificate{SerialNumber: big.NewInt(2), Subject: pkix.Name{CommonName: name}, DNSNames: []string{name},
		NotBefore: time.Now().Add(-2 * time.Hour), NotAfter: until, ExtKeyUsage: []x509.ExtKeyUsage{use}}
	data, err := x509.CreateCertificate(rand.Reader, it, a.certificate, &key.PublicKey, a.key)
	if err != nil {
		t.Fatal(err)
	}
	text, err := x509.MarshalECPrivateKey(key)
	if err != nil {
		t.Fatal(err)
	}
	return tls.Certificate{Certificate: [][]byte{data}, PrivateKey: key}, written(t, "CERTIFICATE", data),
		written(t, "EC PRIVATE KEY", text)
}

// agreed is what the client reads, and what the server finds, if they agree on TLS.
func agreed(t *testing.T, its *tls.Config, client *tls.Config) (clientSide, serverSide error) {
	t.Helper()
	place, err := net.Listen("tcp", "127.0.0.1:0")
	if err != nil {
		t.Fatal(err)
	}
	defer place.Close()
	found := make(chan error, 1)
	go func() {
		raw, err := place.Accept()
		if err != nil {
			found <- err
			return
		}
		defer raw.Close()
		it := tls.Server(raw, its)
		if err = it.Handshake(); err == nil {
			err = Verify(it, its)
		}
		found <- err
		if err == nil {
			it.Write([]byte("x"))
		}
		raw.SetReadDeadline(time.Now().Add(time.Second))
		raw.Read(make([]byte, 1000))
	}()
	it, err := tls.Dial("tcp", place.Addr().String(), client)
	if err == nil {
		defer it.Close()
		_, err = it.Read(make([]byte, 1))
	}
	return err, <-found
}

func TestCertificatesOfClients(t *testing.T) {
	own, other := newAuthority(t), newAuthority(t)
	later := time.Now().Add(time.Hour)
	_, certificate, key := own.signs(t, "localhost", x509.ExtKeyUsageServerAuth, later)
	its, err := Read(&config.Config{Certificate: certificate, Key: key, ClientCA: own.file})
	if err != nil {
		t.Fatal(err)
	}
	good, _, _ := own.signs(t, "payments", x509.ExtKeyUsageClientAuth, later)
	gone, _, _ := own.signs(t, "gone", x509.ExtKeyUsageClientAuth, time.Now().Add(-time.Hour))
	forged, _, _ := other.signs(t, "payments", x509.ExtKeyUsageClientAuth, later)
	server, _, _ := own.signs(t, "server", x509.ExtKeyUsageServerAuth, later)
	roots := x509.NewCertPool()
	roots.AddCert(own.certificate)
	for _, row := range []struct {
		name         string
		certificates []tls.Certificate
		version      uint16
		alert, why   string
	}{
		{"a good one", []tls.Certificate{good}, tls.VersionTLS13, "", ""},
		{"a good one over TLS 1.2", []tls.Certificate{good}, tls.VersionTLS12, "", ""},
		{"none", nil, tls.VersionTLS13, "certificate required", "peer did not return a certificate"},
		{"none over TLS 1.2", nil, tls.VersionTLS12, "handshake failure", "peer did not return a certificate"},
		{"one that has expired", []tls.Certificate{gone}, tls.VersionTLS13, "expired certificate", "certificate has expired"},
		{"one that has expired over TLS 1.2", []tls.Certificate{gone}, tls.VersionTLS12, "expired certificate",
			"certificate has expired"},
		{"another authority's", []tls.Certificate{forged}, tls.VersionTLS13, "unknown certificate authority",
			"unable to get local issuer certificate"},
		{"a server's", []tls.Certificate{server}, tls.VersionTLS13, "bad certificate", "incompatible key usage"},
	} {
		// a client sends the certificate that it has, whoever is asked for
		client := &tls.Config{ServerName: "localhost", RootCAs: roots, MaxVersion: row.version}
		if row.certificates != nil {
			client.GetClientCertificate = func(*tls.CertificateRequestInfo) (*tls.Certificate, error) {
				return &row.certificates[0], nil
			}
		}
		got, why := agreed(t, its, client)
		if row.why == "" {
			if got != nil || why != nil {
				t.Errorf("%s: %v, %v", row.name, got, why)
			}
			continue
		}
		if got == nil || !strings.Contains(got.Error(), row.alert) || why == nil || !strings.Contains(why.Error(), row.why) {
			t.Errorf("%s: %v, %v", row.name, got, why)
		}
	}
}

func TestVersions(t *testing.T) {
	own := newAuthority(t)
	_, certificate, key := own.signs(t, "localhost", x509.ExtKeyUsageServerAuth, time.Now().Add(time.Hour))
	its, err := Read(&config.Config{Certificate: certificate, Key: key})
	if err != nil {
		t.Fatal(err)
	}
	for version, is := range map[uint16]bool{tls.VersionTLS10: false, tls.VersionTLS11: false, tls.VersionTLS12: true} {
		client := &tls.Config{InsecureSkipVerify: true, MinVersion: version, MaxVersion: version}
		if got, why := agreed(t, its, client); (got == nil && why == nil) != is {
			t.Errorf("%x: %v, %v", version, got, why)
		}
	}
}

func TestFilesThatAreWrong(t *testing.T) {
	own := newAuthority(t)
	later := time.Now().Add(time.Hour)
	_, certificate, key := own.signs(t, "localhost", x509.ExtKeyUsageServerAuth, later)
	_, _, other := own.signs(t, "localhost", x509.ExtKeyUsageServerAuth, later)
	none, empty := filepath.Join(t.TempDir(), "none"), filepath.Join(t.TempDir(), "empty")
	os.WriteFile(empty, nil, 0o600)
	pipe := filepath.Join(t.TempDir(), "pipe")
	if err := syscall.Mkfifo(pipe, 0o600); err != nil {
		t.Fatal(err)
	}
	locked := written(t, "ENCRYPTED PRIVATE KEY", []byte("x"))
	for _, row := range []struct{ certificate, key, authority, want string }{
		{none, key, "", none + ": No such file or directory"},
		{certificate, none, "", none + ": No such file or directory"},
		{pipe, key, "", pipe + " is a pipe or a device, not a file"},
		{certificate, locked, "", locked + ": the key has a passphrase"},
		{empty, key, "", empty + " and " + key + ": failed to find any PEM data in certificate input"},
		{certificate, other, "", certificate + " and " + other + ": private key does not match public key"},
		{certificate, key, none, none + ": No such file or directory"},
		{certificate, key, empty, empty + ": no certificate or crl found"},
	} {
		_, err := Read(&config.Config{Certificate: row.certificate, Key: row.key, ClientCA: row.authority})
		if err == nil || !strings.HasPrefix(err.Error(), row.want) {
			t.Errorf("%v, not %q", err, row.want)
		}
	}
	if its, err := Read(&config.Config{}); its != nil || err != nil {
		t.Error(its, err)
	}
}
