package etcd

import (
	"context"
	"crypto/tls"
	"io"
	"math"
	"net"
	"strings"
	"sync"
	"time"

	pb "go.etcd.io/etcd/etcdserver/etcdserverpb"
	"google.golang.org/grpc"
	"google.golang.org/grpc/backoff"
	"google.golang.org/grpc/codes"
	"google.golang.org/grpc/credentials"
	"google.golang.org/grpc/grpclog"
	"google.golang.org/grpc/keepalive"
	"google.golang.org/grpc/metadata"
	"google.golang.org/grpc/status"

	"telovamish.org/server/internal/agreed"
	"telovamish.org/server/internal/report"
	"telovamish.org/server/internal/tlsfiles"
)

const (
	fullText      = "database space exceeded"
	compactedText = "required revision has been compacted"
)

// noToken are what etcd says if a token is not, or no longer, one that it knows.
var noToken = []string{
	"invalid auth token",
	"auth token is not provided",
	"user name is empty",
	"revision in header is old",
	"revision of auth store is old",
}

func init() {
	// gRPC has lines of its own for each try; what they say is in the errors of calls too
	grpclog.SetLoggerV2(grpclog.NewLoggerV2(io.Discard, io.Discard, io.Discard))
}

// alive is when a connection is tested while nothing comes: a watch sends nothing, and would not see that
// a machine or its link is lost.
var alive = keepalive.ClientParameters{Time: 10 * time.Second, Timeout: 5 * time.Second}

// address is an address of etcd, with its connection.
type address struct {
	place  string
	access agreed.Access

	mu    sync.Mutex
	stubs *stubs
	given metadata.MD // what goes with each call, made once for a token; nil before that
}

// stubs are a connection, and what is called over it.
type stubs struct {
	conn    *grpc.ClientConn
	keys    pb.KVClient
	watches pb.WatchClient
	care    pb.MaintenanceClient
	auth    pb.AuthClient
}

// connect is a new connection, which is made when it is called over first. A file of TLS may be wrong.
func (a *address) connect() (*stubs, error) {
	options := []grpc.DialOption{
		grpc.WithContextDialer(dial),
		grpc.WithDisableServiceConfig(),
		grpc.WithKeepaliveParams(alive),
		grpc.WithConnectParams(grpc.ConnectParams{
			Backoff: backoff.Config{BaseDelay: 100 * time.Millisecond, Multiplier: 1.6, Jitter: 0.2,
				MaxDelay: time.Second},
			// within a second no connection is made on a busy machine
			MinConnectTimeout: 3 * time.Second,
		}),
		grpc.WithDefaultCallOptions(grpc.MaxCallRecvMsgSize(math.MaxInt32), grpc.MaxCallSendMsgSize(math.MaxInt32)),
	}
	its, err := a.tls()
	if err != nil {
		return nil, err
	}
	if its == nil {
		options = append(options, grpc.WithInsecure())
	} else {
		options = append(options, grpc.WithTransportCredentials(credentials.NewTLS(its)))
	}
	conn, err := grpc.Dial("passthrough:///"+a.place, options...)
	if err != nil {
		return nil, err
	}
	return &stubs{
		conn:    conn,
		keys:    pb.NewKVClient(conn),
		watches: pb.NewWatchClient(conn),
		care:    pb.NewMaintenanceClient(conn),
		auth:    pb.NewAuthClient(conn),
	}, nil
}

func dial(ctx context.Context, place string) (net.Conn, error) {
	var dialer net.Dialer
	return dialer.DialContext(ctx, "tcp", place)
}

func (a *address) tls() (*tls.Config, error) {
	if a.access.Authority == "" {
		return nil, nil
	}
	return tlsfiles.ReadOfClient(a.access.Authority, a.access.Certificate, a.access.Key)
}

// use has calls go over another connection, and returns the one before it.
func (a *address) use(it *stubs) *stubs {
	a.mu.Lock()
	defer a.mu.Unlock()
	before := a.stubs
	a.stubs = it
	return before
}

func (a *address) current() *stubs {
	a.mu.Lock()
	defer a.mu.Unlock()
	return a.stubs
}

// called is a context for a call, and what it goes over. A token goes with each call if there is a user,
// and that a member without a leader is to refuse.
func (a *address) called(ctx context.Context) (context.Context, *stubs, error) {
	a.mu.Lock()
	its, given := a.stubs, a.given
	a.mu.Unlock()
	if given == nil {
		given = metadata.Pairs("hasleader", "true")
		if a.access.User != "" {
			password, err := a.access.Password()
			if err != nil {
				return nil, nil, err
			}
			within, cancel := context.WithTimeout(ctx, try)
			defer cancel()
			said, err := its.auth.Authenticate(within, &pb.AuthenticateRequest{Name: a.access.User, Password: password})
			if err != nil {
				return nil, nil, err
			}
			given.Set("token", said.Token)
		}
		a.mu.Lock()
		a.given = given
		a.mu.Unlock()
	}
	return metadata.NewOutgoingContext(ctx, given), its, nil
}

// forgetToken has the next call ask for another token: this one may have run out.
func (a *address) forgetToken() {
	a.mu.Lock()
	defer a.mu.Unlock()
	a.given = nil
}

// fault is what a call's error means, if the call is not to be tried again elsewhere.
func (a *address) fault(err error) error {
	if _, ok := err.(*report.Ended); ok {
		return err
	}
	if _, ok := err.(*agreed.Error); ok {
		return err
	}
	said := status.Convert(err)
	text := said.Message()
	for _, it := range noToken {
		if strings.Contains(text, it) {
			a.forgetToken()
			return nil
		}
	}
	switch {
	case said.Code() == codes.ResourceExhausted && strings.Contains(text, fullText):
		return agreed.Failed(agreed.ErrFull, text)
	case said.Code() == codes.PermissionDenied, said.Code() == codes.InvalidArgument:
		return report.End(1, "%s: %s", a.place, text)
	case strings.Contains(text, compactedText):
		return agreed.Failed(agreed.ErrGone, text)
	}
	return nil
}

// textOf is what an error of a call says.
func textOf(err error) string { return status.Convert(err).Message() }
