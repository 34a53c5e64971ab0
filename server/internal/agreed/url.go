package agreed

import (
	"fmt"
	"net"
	"regexp"
	"strconv"
	"strings"
	"unicode/utf8"

	"telovamish.org/server/internal/report"
)

// URL is where a log is: KIND://HOST[:PORT],../NAME.
type URL struct {
	Kind      string
	Addresses []Address
	Name      string
}

// Address is a host and a port of an engine.
type Address struct {
	Host string
	Port uint16
}

// String is the address, with brackets around one of IPv6.
func (a Address) String() string { return net.JoinHostPort(a.Host, strconv.Itoa(int(a.Port))) }

// OpenFunc opens a log of a kind.
type OpenFunc func(addresses []Address, name string, access Access, log *report.Log) (Log, error)

type engine struct {
	port uint16 // which is not given
	open OpenFunc
}

var (
	engines   = map[string]engine{}
	urlForm   = regexp.MustCompile(`^([a-z]+)://([^/]+)/([A-Za-z0-9_./-]+)$`)
	placeForm = regexp.MustCompile(`^(\[[0-9A-Fa-f:.]+\]|[^\[\]:]+)(?::([0-9]{1,5}))?$`)
)

// Register makes a kind of engine known, with the port that it has if none is given. An engine's package
// calls it when it is initialized.
func Register(kind string, port uint16, open OpenFunc) { engines[kind] = engine{port, open} }

// Open is the log of a URL. It connects when it is called first.
func Open(url string, access Access, log *report.Log) (Log, error) {
	found, err := Parse(url)
	if err != nil {
		return nil, report.End(1, "%v", err)
	}
	return engines[found.Kind].open(found.Addresses, found.Name, access, log)
}

// Parse is what a URL says.
func Parse(url string) (*URL, error) {
	found := urlForm.FindStringSubmatch(url)
	if found == nil || engines[found[1]].open == nil {
		return nil, fmt.Errorf("%s is no etcd://HOST,../NAME or postgresql://HOST,../DATABASE/NAME", report.Quoted(url))
	}
	it := &URL{Kind: found[1], Name: found[3]}
	for _, text := range strings.Split(found[2], ",") {
		address, ok := addressOf(text, engines[it.Kind].port)
		if !ok {
			return nil, fmt.Errorf("%s is no HOST or HOST:PORT", report.Quoted(text))
		}
		it.Addresses = append(it.Addresses, address)
	}
	return it, nil
}

func addressOf(text string, port uint16) (Address, bool) {
	found := placeForm.FindStringSubmatch(text)
	if found == nil || !utf8.ValidString(text) {
		return Address{}, false
	}
	host := strings.Trim(found[1], "[]")
	if found[1] == host && !isName(host) {
		return Address{}, false
	}
	if found[2] != "" {
		number, err := strconv.ParseUint(found[2], 10, 16)
		if err != nil {
			return Address{}, false
		}
		port = uint16(number)
	}
	return Address{host, port}, true
}

// isName reports whether a host may be looked up: no part of its name is empty or too long.
func isName(host string) bool {
	for _, part := range strings.Split(strings.TrimSuffix(host, "."), ".") {
		if part == "" || len(part) > 63 {
			return false
		}
	}
	return true
}
