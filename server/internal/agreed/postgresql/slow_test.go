//go:build slow

package postgresql

import (
	"bytes"
	"context"
	"errors"
	"fmt"
	"net"
	"os"
	"os/exec"
	"os/user"
	"path/filepath"
	"sort"
	"strconv"
	"strings"
	"sync/atomic"
	"syscall"
	"testing"
	"time"

	"telovamish.org/server/internal/agreed"
	"telovamish.org/server/internal/agreed/agreedtest"
	"telovamish.org/server/internal/report"
)

// cluster is a primary, and a standby that each commit waits for.
type cluster struct {
	folder    string
	owner     *syscall.Credential // whom the servers run as, because they refuse root
	addresses []agreed.Address
	servers   []*exec.Cmd
	names     atomic.Int32
}

// programs is the folder of the newest PostgreSQL's programs.
func programs(t *testing.T) string {
	found, _ := filepath.Glob("/usr/lib/postgresql/*/bin")
	if len(found) == 0 {
		t.Fatal("PostgreSQL is not installed")
	}
	sort.Strings(found)
	return found[len(found)-1]
}

// start starts PostgreSQL, once for all cases of a test.
func start(t *testing.T) *cluster {
	t.Helper()
	folder, err := os.MkdirTemp("", "postgresql-")
	if err != nil {
		t.Fatal(err)
	}
	t.Cleanup(func() { os.RemoveAll(folder) })
	c := &cluster{folder: folder}
	if os.Getuid() == 0 {
		its, err := user.Lookup("postgres")
		if err != nil {
			t.Fatal(err)
		}
		uid, _ := strconv.Atoi(its.Uid)
		gid, _ := strconv.Atoi(its.Gid)
		c.owner = &syscall.Credential{Uid: uint32(uid), Gid: uint32(gid)}
		if err := os.Chown(folder, uid, gid); err != nil {
			t.Fatal(err)
		}
	}
	ports := agreedtest.FreePorts(t, 2)
	for _, port := range ports {
		c.addresses = append(c.addresses, agreed.Address{Host: "127.0.0.1", Port: port})
	}
	c.run(t, "initdb", "-D", folder+"/primary", "-A", "trust", "-U", "postgres", "-N")
	c.serve(t, "primary", ports[0], "synchronous_standby_names = 'FIRST 1 (standby)'")
	c.run(t, "pg_basebackup", "-D", folder+"/standby", "-R", "-c", "fast", "-N", "-d", fmt.Sprintf(
		"host=127.0.0.1 port=%d user=postgres application_name=standby", ports[0]))
	c.serve(t, "standby", ports[1], "")
	return c
}

func (c *cluster) command(t *testing.T, program string, words ...string) *exec.Cmd {
	it := exec.Command(filepath.Join(programs(t), program), words...)
	it.Dir = "/"
	it.SysProcAttr = &syscall.SysProcAttr{Credential: c.owner, Pdeathsig: syscall.SIGKILL}
	return it
}

func (c *cluster) run(t *testing.T, program string, words ...string) {
	t.Helper()
	if said, err := c.command(t, program, words...).CombinedOutput(); err != nil {
		t.Fatalf("%s: %v: %s", program, err, said)
	}
}

// serve starts a server, and waits until it takes connections.
func (c *cluster) serve(t *testing.T, name string, port uint16, more string) {
	t.Helper()
	file, err := os.OpenFile(filepath.Join(c.folder, name, "postgresql.conf"), os.O_APPEND|os.O_WRONLY, 0)
	if err != nil {
		t.Fatal(err)
	}
	fmt.Fprintf(file, "port = %d\nlisten_addresses = '127.0.0.1'\nunix_socket_directories = ''\nfsync = off\n%s\n",
		port, more)
	file.Close()
	it := c.command(t, "postgres", "-D", filepath.Join(c.folder, name))
	if err := it.Start(); err != nil {
		t.Fatal(err)
	}
	t.Cleanup(func() { it.Process.Signal(syscall.SIGQUIT); it.Wait() })
	c.servers = append(c.servers, it)
	agreedtest.Until(t, name+" takes connections", func() bool {
		conn, err := connect(context.Background(), c.addresses[len(c.servers)-1], "postgres",
			&agreed.Access{User: "postgres"}, nil, false)
		if err == nil {
			conn.close()
		}
		return err == nil
	})
}

func (c *cluster) open(t *testing.T, name, user string, standbys int) *Log {
	t.Helper()
	it, err := New(c.addresses, "postgres/"+name, agreed.Access{User: user, Standbys: standbys}, report.New("test", false))
	if err != nil {
		t.Fatal(err)
	}
	return it
}

func (c *cluster) asks(t *testing.T, query string) {
	t.Helper()
	conn, err := connect(context.Background(), c.addresses[0], "postgres", &agreed.Access{User: "postgres"}, nil, true)
	if err != nil {
		t.Fatal(err)
	}
	defer conn.close()
	if err := conn.script(context.Background(), query); err != nil {
		t.Fatal(query, err)
	}
}

func TestServers(t *testing.T) {
	c := start(t)
	agreedtest.TestLog(t, func(t *testing.T) func() agreed.Log {
		name := fmt.Sprintf("log%d", c.names.Add(1))
		return func() agreed.Log { return c.open(t, name, "postgres", 1) }
	})
	for name, test := range map[string]func(*testing.T, *cluster){
		"a user who may make no tables":          testRights,
		"a trim that takes longer than a call":   testLongTrim,
		"a row that a disk has changed":          testChanged,
		"an address that does not reply":         testAway,
		"a standby that is away":                 testBehind,
		"a primary that is started again":        testAgain,
		"what does not report the trim is named": testTrimmed,
	} {
		t.Run(name, func(t *testing.T) {
			agreedtest.NoLeak(t)
			test(t, c)
		})
	}
}

// TestPasswords has a primary that speaks only TLS, and asks for a certificate and a password.
func TestPasswords(t *testing.T) {
	c := start(t)
	files, other := t.TempDir(), t.TempDir()
	sign(t, files)
	sign(t, other)
	c.close(t, files)
	right := agreed.Access{User: "bank", PasswordFile: files + "/password", Authority: files + "/ca.crt",
		Certificate: files + "/it.crt", Key: files + "/it.key", Standbys: 1}
	open := func(t *testing.T, access agreed.Access) *Log {
		agreedtest.NoLeak(t)
		its, err := New(c.addresses, "postgres/bank", access, report.New("test", false))
		if err != nil {
			t.Fatal(err)
		}
		t.Cleanup(func() { its.Close() })
		return its
	}
	t.Run("all that is asked for", func(t *testing.T) { appends(t, open(t, right)) })
	for _, row := range refusals(files, other) {
		t.Run(row.name, func(t *testing.T) {
			access := right
			row.change(&access)
			_, err := connect(within(t), c.addresses[0], "postgres", &access, open(t, access).tls, true)
			if err == nil || !strings.Contains(err.Error(), row.why) {
				t.Errorf("got %v", err)
			}
		})
	}
}

// refusal is what is wrong with a user's access, and why it is refused.
type refusal struct {
	name   string
	change func(*agreed.Access)
	why    string
}

func refusals(files, other string) []refusal {
	none := "connection requires a valid client certificate"
	return []refusal{
		{"no files of TLS", func(a *agreed.Access) { a.Authority, a.Certificate, a.Key = "", "", "" }, none},
		{"no certificate", func(a *agreed.Access) { a.Certificate, a.Key = "", "" }, none},
		{"a certificate that another authority signed", func(a *agreed.Access) {
			a.Certificate, a.Key = other+"/it.crt", other+"/it.key"
		}, "tls: unknown certificate authority"},
		{"a server that another authority signed", func(a *agreed.Access) { a.Authority = other + "/ca.crt" },
			"certificate signed by unknown authority"},
		{"a wrong password", func(a *agreed.Access) { a.PasswordFile = files + "/names" },
			`password authentication failed for user "bank"`},
		{"no password", func(a *agreed.Access) { a.PasswordFile = "" }, "password authentication failed"},
		{"another user", func(a *agreed.Access) { a.User = "postgres" }, "no pg_hba.conf entry for host"},
	}
}

// appends appends an entry, and reads it.
func appends(t *testing.T, log *Log) {
	t.Helper()
	ctx := within(t)
	headed(ctx, t, log)
	if _, err := log.Append(ctx, []byte("w"), 1, []byte("TBENTRY2")); err != nil {
		t.Fatal(err)
	}
	enough := errors.New("enough")
	if err := log.Read(ctx, 0, func(agreed.Item) error { return enough }); err != enough {
		t.Error(err)
	}
}

// sign makes an authority, and what it signed for the loopback interface.
func sign(t *testing.T, folder string) {
	t.Helper()
	for name, text := range map[string]string{"names": "subjectAltName=IP:127.0.0.1\n", "password": "it's \\ secret\n"} {
		if err := os.WriteFile(filepath.Join(folder, name), []byte(text), 0o600); err != nil {
			t.Fatal(err)
		}
	}
	key := "-newkey ec -pkeyopt ec_paramgen_curve:prime256v1 -nodes "
	for _, words := range []string{
		"req -x509 " + key + "-keyout ca.key -out ca.crt -subj /CN=authority",
		"req " + key + "-keyout it.key -out it.csr -subj /CN=it",
		"x509 -req -in it.csr -CA ca.crt -CAkey ca.key -CAcreateserial -out it.crt -extfile names",
	} {
		it := exec.Command("openssl", strings.Fields(words)...)
		it.Dir = folder
		if said, err := it.CombinedOutput(); err != nil {
			t.Fatalf("openssl %s: %v: %s", words, err, said)
		}
	}
}

// close has the primary take only the standby and the user bank, who needs TLS, a certificate and a password.
func (c *cluster) close(t *testing.T, files string) {
	t.Helper()
	for from, to := range map[string]string{"ca.crt": "ca.crt", "it.crt": "server.crt", "it.key": "server.key"} {
		data, err := os.ReadFile(filepath.Join(files, from))
		if err != nil {
			t.Fatal(err)
		}
		c.write(t, to, data)
	}
	c.asks(t, `SET synchronous_commit = local; CREATE USER bank PASSWORD E'it''s \\ secret'; GRANT pg_monitor TO bank;
GRANT CREATE ON SCHEMA public TO bank`)
	for _, it := range []string{"ssl_ca_file = 'ca.crt'", "ssl = on"} {
		c.asks(t, "ALTER SYSTEM SET "+it)
	}
	c.write(t, "pg_hba.conf", []byte(`host replication postgres 127.0.0.1/32 trust
hostssl all bank 127.0.0.1/32 scram-sha-256 clientcert=verify-ca
`))
	c.asks(t, "SELECT pg_reload_conf()")
}

// write writes a file of the primary.
func (c *cluster) write(t *testing.T, name string, data []byte) {
	t.Helper()
	path := filepath.Join(c.folder, "primary", name)
	if err := os.WriteFile(path, data, 0o600); err != nil {
		t.Fatal(err)
	}
	if c.owner != nil {
		if err := os.Chown(path, int(c.owner.Uid), int(c.owner.Gid)); err != nil {
			t.Fatal(err)
		}
	}
}

func within(t *testing.T) context.Context {
	ctx, end := context.WithTimeout(context.Background(), 2*agreedtest.Wait)
	t.Cleanup(end)
	return ctx
}

func headed(ctx context.Context, t *testing.T, log *Log) {
	t.Helper()
	if _, err := log.Head(ctx, []byte("it")); err != nil {
		t.Fatal(err)
	}
}

// testRights has tables that are there be enough.
func testRights(t *testing.T, c *cluster) {
	ctx, owner, user := within(t), c.open(t, "rights", "postgres", 1), c.open(t, "rights", "app", 0)
	defer owner.Close()
	defer user.Close()
	headed(ctx, t, owner)
	c.asks(t, "CREATE ROLE app LOGIN")
	c.asks(t, "GRANT SELECT, INSERT, UPDATE, DELETE ON rights_log, rights_keys, rights_at TO app")
	if head, err := user.Head(ctx, []byte("other")); string(head) != "it" || err != nil {
		t.Errorf("the head is %q, %v", head, err)
	}
	if place, err := user.Append(ctx, []byte("w"), 1, []byte("it")); place != 1 || err != nil {
		t.Errorf("the place is %d, %v", place, err)
	}
	c.asks(t, "DROP TABLE rights_at")
	var ended *report.Ended
	_, err := user.Head(ctx, []byte("other"))
	if !errors.As(err, &ended) || ended.Status != 1 || ended.Line != "permission denied for schema public" {
		t.Errorf("got %v", err)
	}
	if _, err := user.Reports(ctx); !errors.As(err, &ended) || ended.Line != `relation "rights_at" does not exist` {
		t.Errorf("got %v", err)
	}
	headed(ctx, t, owner)
	if err := owner.Report(ctx, "r0", []byte("{}")); err != nil {
		t.Error(err)
	}
}

// testLongTrim removes a long log in parts, the last of which may come later.
func testLongTrim(t *testing.T, c *cluster) {
	ctx, log := within(t), c.open(t, "long", "postgres", 1)
	defer log.Close()
	headed(ctx, t, log)
	c.asks(t, "INSERT INTO long_log SELECT it, '', it, '' FROM generate_series(1, 1001) AS it")
	c.asks(t, `CREATE FUNCTION slow() RETURNS trigger AS
            $$ BEGIN PERFORM pg_sleep(0.005); RETURN old; END $$ LANGUAGE plpgsql`)
	c.asks(t, "CREATE TRIGGER slow BEFORE DELETE ON long_log FOR EACH ROW EXECUTE FUNCTION slow()")
	for _, it := range []struct{ place, first int64 }{{900, 901}, {2000, 1001}} {
		if _, err := log.Trim(ctx, uint64(it.place), agreed.Place(it.place)); err != nil {
			t.Fatal(err)
		}
		if is, err := log.HasRemoved(ctx, agreed.Place(it.place)); !is || err != nil {
			t.Errorf("up to %d is removed: %v, %v", it.place, is, err)
		}
		rows, err := log.rows(ctx, all, made(log.texts.least))
		if err != nil || rows[0].int(0) != it.first {
			t.Errorf("the first one is %v, %v", rows, err)
		}
	}
}

// testChanged has rows that are not the next ones.
func testChanged(t *testing.T, c *cluster) {
	ctx, log := within(t), c.open(t, "changed", "postgres", 1)
	defer log.Close()
	headed(ctx, t, log)
	for number := uint64(1); number <= 3; number++ {
		if _, err := log.Append(ctx, []byte("w"), number, []byte("it")); err != nil {
			t.Fatal(err)
		}
	}
	c.asks(t, "UPDATE changed_log SET position = 7 WHERE position = 2")
	got, enough := "", errors.New("enough")
	err := log.Read(ctx, 0, func(it agreed.Item) error {
		got += fmt.Sprintf("%d:%d ", it.Place, len(it.Data))
		if it.Place == 4 {
			return enough
		}
		return nil
	})
	if err != enough || got != "1:2 2:0 3:2 4:0 " {
		t.Errorf("got %q, %v", got, err)
	}
}

// testAway has an address that takes connections and never replies, one that nobody listens at, and the
// standby before the primary.
func testAway(t *testing.T, c *cluster) {
	silent, err := net.Listen("tcp", "127.0.0.1:0")
	if err != nil {
		t.Fatal(err)
	}
	defer silent.Close()
	nobody := agreed.Address{Host: "127.0.0.1", Port: agreedtest.FreePorts(t, 1)[0]}
	lost := agreed.Address{Host: "127.0.0.1", Port: uint16(silent.Addr().(*net.TCPAddr).Port)}
	places := []agreed.Address{lost, nobody, c.addresses[1], c.addresses[0]}
	log, err := New(places, "postgres/away", agreed.Access{User: "postgres", Standbys: 1}, nil)
	if err != nil {
		t.Fatal(err)
	}
	defer log.Close()
	ctx := within(t)
	headed(ctx, t, log)
	for _, node := range []string{lost.String(), nobody.String(), "unknown:1"} {
		err := log.Seen(ctx, node, 0, func(it agreed.Item) error { return fmt.Errorf("%v comes", it) })
		if err != nil {
			t.Errorf("%s: %v", node, err)
		}
	}
	none, err := New(places[1:3], "postgres/away", agreed.Access{User: "postgres"}, nil)
	if err != nil {
		t.Fatal(err)
	}
	defer none.Close()
	_, err = none.Head(ctx, nil)
	want := nobody.String() + ": connection failed: Connection refused; " + c.addresses[1].String() +
		": connection failed: read only connection"
	if !errors.Is(err, agreed.ErrNoLog) || err.Error() != want {
		t.Errorf("got %v, want %s", err, want)
	}
}

// testBehind has a wait for the standby be cancelled: the primary then shows a row that only it has. It
// must not be read before the standby has it.
func testBehind(t *testing.T, c *cluster) {
	ctx, log := within(t), c.open(t, "behind", "postgres", 1)
	defer log.Close()
	headed(ctx, t, log)
	stop := func(it syscall.Signal) {
		children, _ := exec.Command("pgrep", "-P", fmt.Sprint(c.servers[1].Process.Pid)).Output()
		for _, pid := range append(strings.Fields(string(children)), fmt.Sprint(c.servers[1].Process.Pid)) {
			number, _ := strconv.Atoi(pid)
			syscall.Kill(number, it)
		}
	}
	read := make(chan agreed.Item, 10)
	reading, end := context.WithCancel(ctx)
	ended := make(chan error, 1)
	go func() {
		ended <- log.Read(reading, 0, func(it agreed.Item) error { read <- it; return nil })
	}()
	stop(syscall.SIGSTOP)
	defer stop(syscall.SIGCONT)
	appending := make(chan error, 1)
	go func() {
		_, err := log.Append(ctx, []byte("w"), 1, []byte("it"))
		appending <- err
	}()
	other := c.open(t, "behind", "postgres", 0) // which takes what no standby has
	defer other.Close()
	enough := errors.New("enough")
	shown := make(chan error, 1)
	go func() { shown <- other.Read(ctx, 0, func(agreed.Item) error { return enough }) }()
	for isShown := false; !isShown; {
		c.asks(t, "SELECT pg_cancel_backend(pid) FROM pg_stat_activity WHERE wait_event = 'SyncRep'")
		select {
		case err := <-shown:
			isShown = true
			if err != enough {
				t.Error(err)
			}
		case <-time.After(50 * time.Millisecond):
		}
	}
	if err := <-appending; err != nil && !errors.Is(err, agreed.ErrNoLog) { // tried again it is there
		t.Errorf("an append whose wait was cancelled: %v", err)
	}
	if len(read) > 0 {
		t.Error("a row is read that no standby has")
	}
	stop(syscall.SIGCONT)
	select {
	case it := <-read:
		if it.Place != 1 || !bytes.Equal(it.Data, []byte("it")) {
			t.Errorf("%v comes", it)
		}
	case <-ctx.Done():
		t.Error("it does not come once the standby has it")
	}
	end()
	<-ended
}

// testAgain ends all connections of the primary amid appends.
func testAgain(t *testing.T, c *cluster) {
	ctx, log := within(t), c.open(t, "again", "postgres", 1)
	defer log.Close()
	headed(ctx, t, log)
	const count = 30
	enough, ended, got := errors.New("enough"), make(chan error, 1), []string{}
	go func() {
		ended <- log.Read(ctx, 0, func(it agreed.Item) error {
			if it.Report == "" {
				got = append(got, string(it.Data))
			}
			if len(got) == count {
				return enough
			}
			return nil
		})
	}()
	for number := 1; number <= count; number++ {
		if number%10 == 5 {
			c.asks(t, "SELECT pg_terminate_backend(pid) FROM pg_stat_activity WHERE usename = 'postgres' "+
				"AND backend_type = 'client backend' AND pid <> pg_backend_pid()")
		}
		for {
			_, err := log.Append(ctx, []byte("w"), uint64(number), []byte(fmt.Sprint(number)))
			if err == nil {
				break
			}
			if !errors.Is(err, agreed.ErrNoLog) || ctx.Err() != nil {
				t.Fatal(err)
			}
		}
	}
	if err := <-ended; err != enough {
		t.Fatal(err)
	}
	for at, it := range got {
		if it != fmt.Sprint(at+1) {
			t.Errorf("entry %d is %s", at+1, it)
		}
	}
}

// testTrimmed has `trimmed` be no number.
func testTrimmed(t *testing.T, c *cluster) {
	ctx, log := within(t), c.open(t, "trimmed", "postgres", 1)
	defer log.Close()
	headed(ctx, t, log)
	c.asks(t, `INSERT INTO trimmed_keys VALUES ('trimmed', '\xff')`)
	_, _, err := log.Trimmed(ctx)
	var ended *report.Ended
	if !errors.As(err, &ended) || ended.Status != 25 || ended.Line != `BadEntry: the log's `+"`trimmed`"+` has b'\xff'` {
		t.Errorf("got %v", err)
	}
}
