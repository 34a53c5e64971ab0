//go:build slow

package etcd

import (
	"context"
	"errors"
	"fmt"
	"net"
	"os"
	"os/exec"
	"path/filepath"
	"strings"
	"sync/atomic"
	"testing"
	"time"

	pb "go.etcd.io/etcd/etcdserver/etcdserverpb"

	"telovamish.org/server/internal/agreed"
	"telovamish.org/server/internal/agreed/agreedtest"
	"telovamish.org/server/internal/report"
)

// cluster is an etcd of three nodes on this machine.
type cluster struct {
	addresses []agreed.Address
	commands  []*exec.Cmd
	names     atomic.Int32
}

// start starts etcd, once for all cases of a test.
func start(t *testing.T, more ...string) *cluster {
	t.Helper()
	folder, c := t.TempDir(), &cluster{}
	ports := agreedtest.FreePorts(t, 6)
	peers := []string{}
	for at, port := range ports[3:] {
		peers = append(peers, fmt.Sprintf("n%d=http://127.0.0.1:%d", at, port))
		c.addresses = append(c.addresses, agreed.Address{Host: "127.0.0.1", Port: ports[at]})
	}
	for at := range peers {
		serves, peer := "http://"+c.addresses[at].String(), strings.SplitN(peers[at], "=", 2)[1]
		words := []string{"--name", fmt.Sprintf("n%d", at), "--data-dir", filepath.Join(folder, fmt.Sprint(at)),
			"--logger", "zap", "--log-level", "error", "--initial-cluster", strings.Join(peers, ","),
			"--listen-peer-urls", peer, "--initial-advertise-peer-urls", peer,
			"--listen-client-urls", serves, "--advertise-client-urls", serves, "--unsafe-no-fsync"}
		it := exec.Command("etcd", append(words, more...)...)
		it.Stderr = os.Stderr
		if err := it.Start(); err != nil {
			t.Fatal(err)
		}
		c.commands = append(c.commands, it)
		t.Cleanup(func() { it.Process.Kill(); it.Wait() })
	}
	log := c.open(t, "up", agreed.Access{})
	defer log.Close()
	agreedtest.Until(t, "etcd is up", func() bool {
		_, err := log.Head(context.Background(), []byte("it"))
		return err == nil
	})
	return c
}

func (c *cluster) open(t *testing.T, name string, access agreed.Access) *Log {
	t.Helper()
	it, err := New(c.addresses, name, access, report.New("test", false))
	if err != nil {
		t.Fatal(err)
	}
	return it
}

func TestServers(t *testing.T) {
	c := start(t)
	agreedtest.TestLog(t, func(t *testing.T) func() agreed.Log {
		name := fmt.Sprintf("log%d/x", c.names.Add(1))
		return func() agreed.Log { return c.open(t, name, agreed.Access{}) }
	})
	t.Run("the leader is written to", func(t *testing.T) { testLeader(t, c) })
	t.Run("an address that does not reply", func(t *testing.T) { testAway(t, c) })
	t.Run("keys of others", func(t *testing.T) { testForeign(t, c) })
	t.Run("a node that is killed", func(t *testing.T) { testKilled(t, c) })
}

// testLeader looks who leads, from each address on.
func testLeader(t *testing.T, c *cluster) {
	log := c.open(t, "leader", agreed.Access{})
	defer log.Close()
	ctx := context.Background()
	for from := range c.addresses {
		log.writing = from
		log.writeToLeader()
		_, at := log.current()
		said, err := at.current().care.Status(ctx, &pb.StatusRequest{})
		if err != nil || said.Header.MemberId != said.Leader {
			t.Errorf("from %d: %v is written to, and its leader is %v: %v", from, said.Header, said.Leader, err)
		}
	}
}

// testAway has one address that takes connections and never replies, and one that nobody listens at.
func testAway(t *testing.T, c *cluster) {
	agreedtest.NoLeak(t)
	silent, err := net.Listen("tcp", "127.0.0.1:0")
	if err != nil {
		t.Fatal(err)
	}
	defer silent.Close()
	of := func(at net.Addr) agreed.Address {
		return agreed.Address{Host: "127.0.0.1", Port: uint16(at.(*net.TCPAddr).Port)}
	}
	nobody := agreed.Address{Host: "127.0.0.1", Port: agreedtest.FreePorts(t, 1)[0]}
	log, err := New(append([]agreed.Address{nobody, of(silent.Addr())}, c.addresses...), "away", agreed.Access{}, nil)
	if err != nil {
		t.Fatal(err)
	}
	defer log.Close()
	ctx, end := context.WithTimeout(context.Background(), agreedtest.Wait)
	defer end()
	if _, err := log.Head(ctx, []byte("it")); err != nil {
		t.Fatal(err)
	}
	place, err := log.Append(ctx, []byte("w"), 1, []byte("TBENTRY2"))
	if err != nil {
		t.Fatal(err)
	}
	enough := errors.New("enough")
	err = log.Read(ctx, 0, func(it agreed.Item) error {
		if it.Place != place {
			return fmt.Errorf("place %d comes", it.Place)
		}
		return enough
	})
	if err != enough {
		t.Error(err)
	}
	for _, node := range []string{nobody.String(), of(silent.Addr()).String(), "unknown:1"} {
		err := log.Seen(ctx, node, 0, func(it agreed.Item) error { return fmt.Errorf("%v comes", it) })
		if err != nil {
			t.Errorf("%s: %v", node, err)
		}
	}
}

// testForeign has keys below the log's name that no replica wrote.
func testForeign(t *testing.T, c *cluster) {
	log := c.open(t, "foreign", agreed.Access{})
	defer log.Close()
	ctx, end := context.WithTimeout(context.Background(), agreedtest.Wait)
	defer end()
	from, err := log.Last(ctx)
	if err != nil {
		t.Fatal(err)
	}
	for _, key := range []string{"log/x", "log/7", "log/x/1", "at/\xff", "at/", "other", "log/a/000000000000000000001"} {
		if err := log.put(ctx, usual, "foreign/"+key, []byte("{}")); err != nil {
			t.Fatal(err)
		}
	}
	place, err := log.Append(ctx, []byte("w"), 1, []byte("TBENTRY2"))
	if err != nil {
		t.Fatal(err)
	}
	if err := log.Report(ctx, "r0", []byte("{}")); err != nil {
		t.Fatal(err)
	}
	got, enough := "", errors.New("enough")
	for _, is := range []string{"watched", "listed"} {
		got = ""
		err = log.Read(ctx, from, func(it agreed.Item) error {
			got += fmt.Sprint(it.Place-place, it.Report, " ")
			if it.Report != "" || is == "listed" {
				return enough
			}
			return nil
		})
		if err != enough || got != map[string]string{"watched": "0 1r0 ", "listed": "0 "}[is] {
			t.Errorf("%s: %q, %v", is, got, err)
		}
		if err := log.compact(ctx, int64(place)+1); err != nil {
			t.Fatal(err)
		}
	}
	reports, err := log.Reports(ctx)
	if err != nil || len(reports) != 1 {
		t.Errorf("reports %v, %v", reports, err)
	}
	if _, err := log.Trim(ctx, 1, place); err != nil {
		t.Error(err)
	}
	if is, err := log.HasRemoved(ctx, place); err != nil || !is {
		t.Errorf("it has removed: %v, %v", is, err)
	}
}

// testKilled has the node be killed that is read and written at, amid appends.
func testKilled(t *testing.T, c *cluster) {
	agreedtest.NoLeak(t)
	log := c.open(t, "killed", agreed.Access{})
	defer log.Close()
	ctx, end := context.WithTimeout(context.Background(), 2*agreedtest.Wait)
	defer end()
	if _, err := log.Head(ctx, []byte("it")); err != nil {
		t.Fatal(err)
	}
	const count = 40
	found, ended := []string{}, make(chan error, 1)
	enough := errors.New("enough")
	go func() {
		ended <- log.Read(ctx, 0, func(it agreed.Item) error {
			if found = append(found, string(it.Data)); len(found) == count {
				return enough
			}
			return nil
		})
	}()
	for number := 1; number <= count; number++ {
		if number == count/2 {
			at, _ := log.current()
			c.commands[at].Process.Kill()
		}
		for {
			_, err := log.Append(ctx, []byte("w"), uint64(number), []byte(fmt.Sprint("TBENTRY2", number)))
			if err == nil {
				break
			}
			if !errors.Is(err, agreed.ErrNoLog) || ctx.Err() != nil {
				t.Fatal(err)
			}
		}
	}
	if err := <-ended; err != enough {
		t.Fatal(err)
	}
	for at, it := range found {
		if want := fmt.Sprint("TBENTRY2", at+1); it != want {
			t.Errorf("entry %d is %s", at+1, it)
		}
	}
}

// TestFull fills the quota, and trims: first without room for that, then with what reports have left.
func TestFull(t *testing.T) {
	c := start(t, "--quota-backend-bytes", fmt.Sprint(6<<20))
	log := c.open(t, "full", agreed.Access{})
	defer log.Close()
	ctx, end := context.WithTimeout(context.Background(), 3*agreedtest.Wait)
	defer end()
	if _, err := log.Head(ctx, []byte("it")); err != nil {
		t.Fatal(err)
	}
	data := append([]byte("TBENTRY2"), make([]byte, 1<<19)...)
	for number := 0; number < 4; number++ {
		if err := log.Report(ctx, "r0", data); err != nil {
			t.Fatal(err)
		}
	}
	last, number := fill(ctx, t, log, data)
	if err := log.Report(ctx, "r0", nil); !errors.Is(err, agreed.ErrFull) {
		t.Errorf("a report: %v", err)
	}
	if head, err := log.Head(ctx, []byte("other")); string(head) != "it" || err != nil {
		t.Errorf("the head is %q, %v", head, err)
	}
	agreedtest.Until(t, "the alarm", func() bool {
		why, err := log.Full(ctx)
		return err == nil && why == "etcd has the alarm NOSPACE"
	})
	said, err := log.Trim(ctx, number-1, last)
	if err != nil || said[0] != fmt.Sprintf("entries up to position %d are removed", number-1) {
		t.Fatal(said, err)
	}
	if why, err := log.Full(ctx); why != "" || err != nil {
		t.Errorf("it is full: %s, %v", why, err)
	}
	agreedtest.Until(t, "an append", func() bool {
		_, err := log.Append(ctx, []byte("w"), number, data)
		return err == nil
	})
	other := c.open(t, "other", agreed.Access{})
	defer other.Close()
	last, _ = fill(ctx, t, other, data)
	if _, err := other.Trim(ctx, 1, last); !errors.Is(err, agreed.ErrFull) {
		t.Errorf("a trim without room: %v", err)
	}
}

// fill appends until the log is full. It returns the last place, and the first number that has none.
func fill(ctx context.Context, t *testing.T, log *Log, data []byte) (agreed.Place, uint64) {
	t.Helper()
	last := agreed.Place(0)
	for number := uint64(1); ; {
		place, err := log.Append(ctx, []byte("w"), number, data)
		switch {
		case err == nil:
			last = place
			number++
		case errors.Is(err, agreed.ErrFull):
			return last, number
		case !errors.Is(err, agreed.ErrNoLog) || ctx.Err() != nil:
			t.Fatal(err)
		}
	}
}

// TestPasswords has etcd ask for a user.
func TestPasswords(t *testing.T) {
	c := start(t)
	ctx, end := context.WithTimeout(context.Background(), 2*agreedtest.Wait)
	defer end()
	file := filepath.Join(t.TempDir(), "password")
	if err := os.WriteFile(file, []byte("secret\n"), 0o600); err != nil {
		t.Fatal(err)
	}
	open := c.open(t, "bank", agreed.Access{})
	defer open.Close()
	if _, err := open.Head(ctx, []byte("it")); err != nil {
		t.Fatal(err)
	}
	auth := open.addresses[0].current().auth
	for _, name := range []string{"root", "other"} {
		if _, err := auth.UserAdd(ctx, &pb.AuthUserAddRequest{Name: name, Password: "secret"}); err != nil {
			t.Fatal(err)
		}
	}
	if _, err := auth.RoleAdd(ctx, &pb.AuthRoleAddRequest{Name: "root"}); err != nil {
		t.Fatal(err)
	}
	if _, err := auth.UserGrantRole(ctx, &pb.AuthUserGrantRoleRequest{User: "root", Role: "root"}); err != nil {
		t.Fatal(err)
	}
	if _, err := auth.AuthEnable(ctx, &pb.AuthEnableRequest{}); err != nil {
		t.Fatal(err)
	}
	root := c.open(t, "bank", agreed.Access{User: "root", PasswordFile: file})
	defer root.Close()
	if _, err := root.Append(ctx, []byte("w"), 1, []byte("TBENTRY2")); err != nil {
		t.Error(err)
	}
	enough := errors.New("enough")
	if err := root.Read(ctx, 0, func(agreed.Item) error { return enough }); err != enough {
		t.Error(err)
	}
	for _, at := range root.addresses { // a token that etcd does not know is replaced
		at.mu.Lock()
		at.given = at.given.Copy()
		at.given.Set("token", "x.1")
		at.mu.Unlock()
	}
	if _, err := root.Append(ctx, []byte("w"), 2, []byte("TBENTRY2")); err != nil {
		t.Error(err)
	}
	other := c.open(t, "bank", agreed.Access{User: "other", PasswordFile: file})
	defer other.Close()
	wrong := c.open(t, "bank", agreed.Access{User: "root", PasswordFile: os.DevNull})
	defer wrong.Close()
	var ended *report.Ended
	for name, log := range map[string]*Log{"other": other, "wrong": wrong} {
		_, err := log.Append(ctx, []byte("v"), 1, []byte("TBENTRY2"))
		if !errors.As(err, &ended) || ended.Status != 1 {
			t.Errorf("%s: %v", name, err)
		}
		// etcd ends the watch of who may not read without an error that says it is final
		within, end := context.WithTimeout(ctx, time.Second)
		err = log.Read(within, 0, func(it agreed.Item) error { return fmt.Errorf("%v comes", it) })
		if !errors.As(err, &ended) && !errors.Is(err, context.DeadlineExceeded) {
			t.Errorf("%s reads: %v", name, err)
		}
		end()
	}
}
