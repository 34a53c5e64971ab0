// Package config is what a listener does, as one typed structure that is made once: from its arguments,
// and from a file in TOML.
package config

import (
	"fmt"
	"math"
	"net/netip"
	"strconv"
	"strings"
	"time"

	"telovamish.org/server/internal/access"
	"telovamish.org/server/internal/report"
)

// Version is that of packaging/VERSION, set by the build.
var Version = "unknown"

// Program is the listener's name in its lines.
const Program = "tb_listen"

// Place is a host and a port.
type Place struct {
	Host string
	Port uint16
}

// String is the place, with brackets around an address of IPv6.
func (p Place) String() string {
	if strings.Contains(p.Host, ":") {
		return fmt.Sprintf("[%s]:%d", p.Host, p.Port)
	}
	return fmt.Sprintf("%s:%d", p.Host, p.Port)
}

// IsZero reports whether there is no place.
func (p Place) IsZero() bool { return p.Host == "" }

// Config is what a listener does.
type Config struct {
	Unix               string
	TCP                Place
	Connections        int
	Certificate        string
	Key                string
	ClientCA           string
	IsInsecure         bool
	Users              []uint32 // who may use the Unix socket too
	Clients            string
	ConnectionsPerPeer int // 0 is any number, as of the next two
	SessionsPerRange   int
	RequestsPerSecond  int
	Memory             int64 // bytes of long requests and replies under way; 0 is any number
	Status             string
	Metrics            Place
	Idle, Slow, Ahead  time.Duration
	IsJSON             bool
	File               string // with more options
	Command            []string
}

// HasTLS reports whether TCP is over TLS.
func (c *Config) HasTLS() bool { return c.Certificate != "" }

func defaults() *Config {
	return &Config{Connections: 256, Idle: 300 * time.Second, Slow: 30 * time.Second}
}

// option is one of the options: its name without dashes, and how it is set.
type option struct {
	name, value, help string
	isMany            bool // it may be repeated
	isRequired        bool
	set               func(c *Config, text string) error
}

// isFlag reports whether the option has no value.
func (o *option) isFlag() bool { return o.value == "" }

var options = []option{
	{name: "unix", value: "PATH", help: "listen on a Unix socket, for its owner only",
		set: path(func(c *Config) *string { return &c.Unix })},
	{name: "tcp", value: "HOST:PORT", help: "listen on TCP, also with --unix (127.0.0.1:3001 where nothing is given; " +
		"port 0 is any that is free; [::1]:3001 for IPv6)",
		set: place(func(c *Config) *Place { return &c.TCP })},
	{name: "connections", value: "N", help: "connections at a time (256); one more gets Busy",
		set: count(func(c *Config) *int { return &c.Connections })},
	{name: "certificate", value: "FILE", help: "the host's certificate: TCP is over TLS",
		set: path(func(c *Config) *string { return &c.Certificate })},
	{name: "key", value: "FILE", help: "the certificate's key",
		set: path(func(c *Config) *string { return &c.Key })},
	{name: "client-ca", value: "FILE", help: "who signs clients' certificates: nobody else gets in over TCP",
		set: path(func(c *Config) *string { return &c.ClientCA })},
	{name: "insecure", help: "listen on an address that is not loopback without --client-ca",
		set: flag(func(c *Config) *bool { return &c.IsInsecure })},
	{name: "allow-uid", value: "USER", help: "a user who may use the Unix socket too, by name or number; may be repeated",
		isMany: true, set: func(c *Config, text string) error {
			uid, err := access.UserOf(text)
			c.Users = append(c.Users, uid)
			return err
		}},
	{name: "clients", value: "FILE", help: "which client ids are whose: lines `certificate NAME NUMBER` or " +
		"`user NAME NUMBER`, where NUMBER is the upper 64 bits of the ids",
		set: path(func(c *Config) *string { return &c.Clients })},
	{name: "connections-per-peer", value: "N", help: "connections of one peer at a time; one more gets TooManyConnections",
		set: count(func(c *Config) *int { return &c.ConnectionsPerPeer })},
	{name: "sessions-per-range", value: "N", help: "sessions of one client range (or peer) that were used within --idle " +
		"seconds; a register of one more gets TooManySessions",
		set: count(func(c *Config) *int { return &c.SessionsPerRange })},
	{name: "requests-per-second", value: "N", help: "requests of one peer in a second, counted once and for each 4 KiB of " +
		"request and reply, a new connection as eight; more wait a second at most, and then get TooManyRequests",
		set: count(func(c *Config) *int { return &c.RequestsPerSecond })},
	{name: "memory", value: "BYTES", help: "bytes of long requests and replies under way, of all connections; " +
		"more requests wait",
		set: func(c *Config, text string) (err error) {
			c.Memory, err = whole(text, 4<<20, 1<<50)
			return err
		}},
	{name: "status", value: "PATH", help: "a Unix socket on which each connection gets the state and the counts, as JSON",
		set: path(func(c *Config) *string { return &c.Status })},
	{name: "metrics", value: "HOST:PORT", help: "serve the counts in Prometheus' text form",
		set: place(func(c *Config) *Place { return &c.Metrics })},
	{name: "idle", value: "SECONDS", help: "how long a connection may take until a request begins (300)",
		set: seconds(0.001, 1e6, func(c *Config) *time.Duration { return &c.Idle })},
	{name: "slow", value: "SECONDS", help: "how long a request may take to come, a client to read a reply, and the " +
		"command to end (30)",
		set: seconds(0.001, 1e6, func(c *Config) *time.Duration { return &c.Slow })},
	{name: "log-json", help: "lines as JSON, with time and peer",
		set: flag(func(c *Config) *bool { return &c.IsJSON })},
	{name: "ahead", value: "SECONDS", help: "how far the ledger's last time may lie ahead of the clock when the command is " +
		"started first (0)",
		set: seconds(0, 1e10, func(c *Config) *time.Duration { return &c.Ahead })},
	{name: "config", value: "FILE", help: "more options, each by its name in TOML, as `connections = 64`, and the command " +
		"as a list; an option that is given here goes before the file's",
		set: path(func(c *Config) *string { return &c.File })},
}

func optionOf(all []option, name string) *option {
	for at := range all {
		if all[at].name == name {
			return &all[at]
		}
	}
	return nil
}

func path(of func(*Config) *string) func(*Config, string) error {
	return func(c *Config, text string) error {
		if text == "" {
			return fmt.Errorf("an empty word is no path")
		}
		*of(c) = text
		return nil
	}
}

func flag(of func(*Config) *bool) func(*Config, string) error {
	return func(c *Config, text string) error {
		*of(c) = text != "false"
		return nil
	}
}

func count(of func(*Config) *int) func(*Config, string) error {
	return func(c *Config, text string) error {
		number, err := whole(text, 1, 65535)
		*of(c) = int(number)
		return err
	}
}

// IsNumber reports whether a word is only digits.
func IsNumber(word string) bool {
	for _, it := range word {
		if it < '0' || it > '9' {
			return false
		}
	}
	return word != ""
}

func whole(text string, least, most int64) (int64, error) {
	if IsNumber(text) && len(text) < 20 {
		number, err := strconv.ParseInt(text, 10, 64)
		if err == nil && least <= number && number <= most {
			return number, nil
		}
	}
	return 0, fmt.Errorf("%s is no number from %d to %d", report.Quoted(short(text, 60)), least, most)
}

func seconds(least, most float64, of func(*Config) *time.Duration) func(*Config, string) error {
	return func(c *Config, text string) error { return Seconds(least, most, of(c))(text) }
}

// Seconds sets a duration to a number of seconds within bounds.
func Seconds(least, most float64, to *time.Duration) func(string) error {
	return func(text string) error {
		value, err := strconv.ParseFloat(strings.TrimSpace(text), 64)
		if err != nil || !(least <= value && value <= most) || strings.ContainsAny(text, "xXpP_") {
			return fmt.Errorf("%s is no number of seconds from %g to %.0f", report.Quoted(short(text, 60)), least, most)
		}
		if value *= float64(time.Second); value >= math.MaxInt64 {
			*to = math.MaxInt64
			return nil
		}
		*to = time.Duration(value)
		return nil
	}
}

func place(of func(*Config) *Place) func(*Config, string) error {
	return func(c *Config, text string) error {
		it, ok := placeOf(text)
		if !ok {
			return fmt.Errorf("%s is no HOST:PORT", report.Quoted(short(text, 300)))
		}
		*of(c) = it
		return nil
	}
}

func placeOf(text string) (Place, bool) {
	colon := strings.LastIndexByte(text, ':')
	if colon < 0 {
		return Place{}, false
	}
	host, port := text[:colon], text[colon+1:]
	name := host
	isBracketed := strings.HasPrefix(host, "[") && strings.HasSuffix(host, "]") && len(host) > 1
	if isBracketed {
		name = host[1 : len(host)-1]
	}
	number, err := strconv.ParseUint(port, 10, 16)
	if name == "" || strings.ContainsAny(name, "[]") || strings.Contains(name, ":") && !isBracketed ||
		!IsNumber(port) || err != nil {
		return Place{}, false
	}
	return Place{name, uint16(number)}, true
}

// short is the first characters of a text.
func short(text string, most int) string {
	if chars := []rune(text); len(chars) > most {
		return string(chars[:most])
	}
	return text
}

// AddressOf is the address that a host is, as the system takes it: also a number of IPv4 in one to four
// parts, as 127.1.
func AddressOf(host string) (netip.Addr, bool) {
	if found, err := netip.ParseAddr(host); err == nil {
		return found, true
	}
	parts := strings.Split(host, ".")
	if len(parts) > 4 {
		return netip.Addr{}, false
	}
	var bytes [4]byte
	for at, part := range parts {
		width := 8
		if at == len(parts)-1 {
			width = 8 * (5 - len(parts))
		}
		number, err := strconv.ParseUint(part, 0, width)
		if err != nil || strings.Contains(part, "_") {
			return netip.Addr{}, false
		}
		for to := 3; width > 0; to, width = to-1, width-8 {
			if width <= 8 && at < len(parts)-1 {
				to = at
			}
			bytes[to] = byte(number)
			number >>= 8
		}
	}
	return netip.AddrFrom4(bytes), true
}
