package sockets

import (
	"errors"
	"net"
	"net/netip"
	"strings"
	"syscall"

	"telovamish.org/server/internal/config"
	"telovamish.org/server/internal/report"
)

// ListenTCP listens at the first address of a host that can be had.
func ListenTCP(place config.Place) (*net.TCPListener, error) {
	if !isName(place.Host) {
		return nil, report.End(1, "%s: is no name of a place", place)
	}
	found, err := config.AddressesOf(place.Host)
	if err == nil && len(found) == 0 {
		err = syscall.EADDRNOTAVAIL
	}
	for _, address := range found {
		var it *net.TCPListener
		it, err = net.ListenTCP(networkOf(address), net.TCPAddrFromAddrPort(netip.AddrPortFrom(address, place.Port)))
		if err == nil {
			return it, nil
		}
	}
	return nil, report.End(1, "%s: %s", place, why(err))
}

// networkOf is the network of an address. At :: connections of IPv4 are taken too, if the system does so.
func networkOf(address netip.Addr) string {
	switch {
	case address.Unmap().Is4():
		return "tcp4"
	case address.IsUnspecified():
		return "tcp"
	}
	return "tcp6"
}

// isName reports whether a host is a name that may be looked up: one of a place has parts of at most 63
// bytes.
func isName(host string) bool {
	for _, part := range strings.Split(host, ".") {
		if len(part) > 63 {
			return false
		}
	}
	return true
}

func why(err error) string {
	var lookup *net.DNSError
	if errors.As(err, &lookup) {
		if lookup.IsNotFound {
			return "Name or service not known"
		}
		return lookup.Err
	}
	return report.Why(err)
}
