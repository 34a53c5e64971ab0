package config

import (
	"context"
	"net"
	"net/netip"
	"time"
)

const lookingUp = 30 * time.Second // that the addresses of a name may take

// lookup finds the addresses of a name. Tests set it.
var lookup = func(host string) ([]netip.Addr, error) {
	ctx, cancel := context.WithTimeout(context.Background(), lookingUp)
	defer cancel()
	return net.DefaultResolver.LookupNetIP(ctx, "ip", host)
}

// AddressesOf are the addresses of a host.
func AddressesOf(host string) ([]netip.Addr, error) {
	if found, ok := AddressOf(host); ok {
		return []netip.Addr{found}, nil
	}
	return lookup(host)
}

// IsLoopback reports whether all addresses of a host are this computer's own. A name that has no address
// is left to the socket, which reports it.
func IsLoopback(host string) bool {
	found, err := AddressesOf(host)
	if err != nil {
		return true
	}
	for _, it := range found {
		if !it.Unmap().IsLoopback() {
			return false
		}
	}
	return true
}

// MayServe reports whether connections may be taken at a host's addresses: only those of certificates, or
// of this computer, unless that was allowed.
func (c *Config) MayServe(host string) bool {
	return c.ClientCA != "" || c.IsInsecure || IsLoopback(host)
}
