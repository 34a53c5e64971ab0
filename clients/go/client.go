package tbclient

import (
	"context"
	"fmt"
	"strconv"
	"strings"
)

const (
	defaultHost = "127.0.0.1" // if only a port is given
	defaultPort = 3001        // if only a host is given, as TigerBeetle's clients have it
)

// ClientOption changes how a [Client] works.
type ClientOption func(*Client) error

// WithSessions sets how many requests a client may have in flight, each in a session of its own: 1
// if it is not given, which executes requests in the order of the calls. A server has places for
// ClientsMax sessions of all its clients.
func WithSessions(sessions int) ClientOption {
	return func(c *Client) error {
		if sessions < 1 || sessions > ClientsMax {
			return invalid("sessions", "must be 1 to %d, not %d", ClientsMax, sessions)
		}
		c.sessions = sessions
		return nil
	}
}

// WithSocket sets the options of the client's connections, as [WithTLS] and [WithTimeout].
func WithSocket(options ...SocketOption) ClientOption {
	return func(c *Client) error {
		c.socket = append(c.socket, options...)
		return nil
	}
}

// WithClientRange makes the ids of the client's sessions have these upper 64 bits, for a listener
// that gives each peer a range.
func WithClientRange(upper uint64) ClientOption {
	return func(c *Client) error {
		c.newID = func() Uint128 {
			id := ID()
			id.Hi = upper
			if id.IsZero() {
				id.Lo = 1
			}
			return id
		}
		return nil
	}
}

// Client is a client that goroutines share, with the calls of TigerBeetle's own: over sockets by
// [NewClient], over a file by [Open]. Lists of calls that
// wait while a request is in flight go out as the next request, and each call gets its own results.
//
// A call waits until its reply is there, whatever is lost and whoever ends meanwhile, or until its
// context ends. One call that ends does not disturb the others. A session that was evicted is
// replaced, and what was in doubt then is settled.
//
// Nothing outlives the process: for requests that have to survive it, use a [Session] and Save.
type Client struct {
	clusterID Uint128
	sessions  int
	socket    []SocketOption
	newID     func() Uint128
	connect   func() (carrier, error)
	queue     *queue
}

// Connect is the client of a ledger that listens: on a port ("3001"), on a Unix socket, whose path has a
// slash ("./ledger.sock"), or on several machines ("10.0.0.1:3001,10.0.0.2:3001"). It connects when it
// is first asked. [Open] returns the same type for a file.
func Connect(addresses string, options ...ClientOption) (*Client, error) {
	return NewClient(Uint128{}, []string{addresses}, options...)
}

// NewClient is a client of the server at these addresses: a port ("3000"), a host with or without a
// port ("10.0.0.1:3000"), or the path of a Unix socket, which has a slash. Several addresses have to
// serve one ledger. It connects nothing yet. The cluster's id may be any: a server has no such id,
// and it is not sent.
func NewClient(clusterID Uint128, addresses []string, options ...ClientOption) (*Client, error) {
	c := &Client{clusterID: clusterID, sessions: 1, newID: ID, queue: newQueue()}
	places, err := parseAddresses(addresses)
	if err != nil {
		return nil, err
	}
	for _, option := range options {
		if err := option(c); err != nil {
			return nil, err
		}
	}
	c.connect = func() (carrier, error) { return NewSocket(places, c.socket...) }
	if _, err := c.connect(); err != nil {
		return nil, err // here, and not at the first call
	}
	return c, nil
}

// parseAddresses reads addresses, of which each may be several with commas between.
func parseAddresses(texts []string) ([]Address, error) {
	var places []Address
	for _, text := range strings.Split(strings.Join(texts, ","), ",") {
		place, err := parseAddress(strings.TrimSpace(text))
		if err != nil {
			return nil, err
		}
		places = append(places, place)
	}
	return places, nil
}

func parseAddress(text string) (Address, error) {
	if strings.Contains(text, "/") {
		return Unix(text), nil
	}
	host, port := text, strconv.Itoa(defaultPort)
	if at := strings.LastIndex(text, ":"); at >= 0 && !strings.HasSuffix(text, "]") {
		host, port = text[:at], text[at+1:]
	} else if isDigits(text) {
		host, port = "", text
	}
	isBracketed := strings.HasPrefix(host, "[") && strings.HasSuffix(host, "]")
	if isBracketed {
		host = host[1 : len(host)-1]
	}
	number, err := strconv.Atoi(port)
	isHost := !strings.ContainsAny(host, "[]") && (isBracketed || !strings.Contains(host, ":"))
	if err != nil || !isDigits(port) || text == "" || !isHost {
		return Address{}, invalid("addresses", "has %.60q: write a port, HOST, HOST:PORT, or a path with a slash", text)
	}
	if host == "" {
		host = defaultHost
	}
	return TCP(host, number), nil
}

func isDigits(text string) bool {
	return text != "" && strings.Trim(text, "0123456789") == ""
}

// CreateAccounts creates accounts, and returns those that were not created.
func (c *Client) CreateAccounts(ctx context.Context, accounts []Account) (AccountResults, error) {
	answer, err := c.ask(ctx, CreateAccounts(accounts))
	return answer.AccountResults, err
}

// CreateTransfers makes transfers, and returns those that were not made.
func (c *Client) CreateTransfers(ctx context.Context, transfers []Transfer) (TransferResults, error) {
	answer, err := c.ask(ctx, CreateTransfers(transfers))
	return answer.TransferResults, err
}

// LookupAccounts returns the accounts with these ids that exist, in the order of the ids.
func (c *Client) LookupAccounts(ctx context.Context, ids []Uint128) ([]Account, error) {
	answer, err := c.ask(ctx, LookupAccounts(ids))
	return answer.Accounts, err
}

// LookupTransfers returns the transfers with these ids that exist, in the order of the ids.
func (c *Client) LookupTransfers(ctx context.Context, ids []Uint128) ([]Transfer, error) {
	answer, err := c.ask(ctx, LookupTransfers(ids))
	return answer.Transfers, err
}

// ask waits until a worker has the answer, or until the caller's context ends.
func (c *Client) ask(ctx context.Context, request Request) (Answer, error) {
	if c == nil || c.queue == nil {
		return Answer{}, invalid("client", "is none: NewClient makes one")
	}
	if err := testContext(ctx); err != nil {
		return Answer{}, err
	}
	made, err := newCall(request)
	if err != nil {
		return Answer{}, err
	}
	if err := ctx.Err(); err != nil {
		return Answer{}, &CancelledError{Err: err}
	}
	if err := c.queue.add(made, c.grow); err != nil {
		return Answer{}, err
	}
	select {
	case <-made.done:
		return made.answer, made.err
	case <-ctx.Done():
		return c.queue.leave(made, ctx.Err())
	}
}

// grow starts one more worker if there may be one. The queue is locked.
func (c *Client) grow() error {
	if len(c.queue.workers) >= c.sessions {
		return nil
	}
	socket, err := c.connect()
	if err != nil {
		return err
	}
	made := &worker{queue: c.queue, socket: socket, newID: c.newID}
	c.queue.workers = append(c.queue.workers, made)
	c.queue.running.Add(1)
	go made.run()
	return nil
}

// Close closes the client. Requests in flight are waited for, as long as one sending may take; calls
// of which nothing was sent are an ErrClosed.
func (c *Client) Close() {
	if c != nil && c.queue != nil {
		c.queue.close()
	}
}

// String is the client's addresses.
func (c *Client) String() string {
	return fmt.Sprintf("client of cluster %v, %d sessions", c.clusterID, c.sessions)
}
