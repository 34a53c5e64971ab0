package manage

import (
	"bytes"
	"context"
	"errors"
	"fmt"
	"io"
	"os"
	"path/filepath"
	"runtime"
	"strings"
	"syscall"
	"testing"
	"time"

	"telovamish.org/server/internal/agreed"
	"telovamish.org/server/internal/agreed/inmemory"
	"telovamish.org/server/internal/config"
	"telovamish.org/server/internal/entries"
	"telovamish.org/server/internal/frames"
	"telovamish.org/server/internal/logcopy"
	"telovamish.org/server/internal/report"
)

var engine = inmemory.New("n0", "n1", "n2")

// TestMain is a server that reads a script, if the environment asks for that.
func TestMain(m *testing.M) {
	if wrong, ok := os.LookupEnv("STAND_IN"); ok {
		standIn(wrong)
		return
	}
	agreed.Register("etcd", 2379, func([]agreed.Address, string, agreed.Access, *report.Log) (agreed.Log, error) {
		return engine.Open(), nil
	})
	agreed.Register("postgresql", 5432, func([]agreed.Address, string, agreed.Access, *report.Log) (agreed.Log, error) {
		return engine.Open(), nil
	})
	os.Exit(m.Run())
}

func standIn(wrong string) {
	head := make([]byte, 56)
	for commit := uint64(1); ; commit++ {
		if _, err := io.ReadFull(os.Stdin, head); err != nil {
			break
		}
		reply := append([]byte(nil), head[8:]...)
		little(reply[16:], commit)
		little(reply[36:], commit)
		if wrong == "reply" {
			copy(reply[16:], "xxxxxxxxxxxxxxxxxxxxxxxxxxxxxxxx")
		}
		os.Stdout.Write(reply)
	}
	switch wrong {
	case "late":
		os.Stdout.Write(make([]byte, 1<<20))
	case "status":
		fmt.Fprintln(os.Stderr, "tbs: Device")
		os.Exit(3)
	}
}

func little(to []byte, number uint64) {
	for at := 0; at < 8; at++ {
		to[at] = byte(number >> (8 * at))
	}
}

// register is a pair of a register.
func register(client byte) []byte {
	frame := make([]byte, frames.HeaderSize)
	frame[0], frame[28] = client, 2
	return entries.AppendPair(nil, uint64(client), frame)
}

// made is a folder with a copy of five entries.
func made(t *testing.T) string {
	t.Helper()
	folder := filepath.Join(t.TempDir(), "copy")
	c, err := logcopy.Open(folder)
	if err == nil {
		err = c.Scan(nil)
	}
	for number := uint64(1); number <= 5 && err == nil; number++ {
		it := entries.Entry{Number: number, Pairs: register(byte(number))}
		_, err = c.Append(agreed.Place(10*number), it.Append(nil))
	}
	if err == nil {
		err = c.Sync(c.Mark())
	}
	if err == nil {
		_, err = logcopy.Kept(folder, "head", []byte(`{"clients_max": 64, "format": 3, "id": "x", "profile": 1, "rules": 1}`))
	}
	if err != nil {
		t.Fatal(err)
	}
	c.Close()
	return folder
}

// ran is the status of a subcommand, what it printed, and its line on standard error.
func ran(t *testing.T, to io.Writer, words ...string) (int, string) {
	t.Helper()
	var said bytes.Buffer
	log := report.NewTo(Program, false, func(line []byte) { said.Write(line) }, time.Now)
	status := run(context.Background(), words[0], words[1:], &output{to: to}, log)
	return status, said.String()
}

func same(t *testing.T, what string, got, want any) {
	t.Helper()
	if fmt.Sprint(got) != fmt.Sprint(want) {
		t.Errorf("%s: got %v, want %v", what, got, want)
	}
}

// failing fails as a device does.
type failing struct{ err error }

func (f failing) Write([]byte) (int, error) { return 0, f.err }

func TestScript(t *testing.T) {
	folder, out := made(t), &bytes.Buffer{}
	pairs := []byte(nil)
	for client := byte(1); client <= 5; client++ {
		pairs = append(pairs, register(client)...)
	}
	status, said := ran(t, out, "script", "--copy", folder)
	same(t, "all", []any{status, out.String(), said}, []any{0, string(pairs), ""})
	status, said = ran(t, failing{syscall.ENOSPC}, "script", "--copy", folder)
	same(t, "a full disk", []any{status, said}, []any{1, "tb_replica: standard output: No space left on device\n"})
	status, said = ran(t, failing{syscall.EPIPE}, "script", "--copy", folder)
	same(t, "a reader that is gone", []any{status, said}, []any{0, ""})
	data, err := os.ReadFile(folder + "/log")
	if err != nil {
		t.Fatal(err)
	}
	size := (len(data) - 8) / 5
	data[8+3*size+40] ^= 1
	os.WriteFile(folder+"/log", data, 0o600)
	out.Reset()
	status, said = ran(t, out, "script", "--copy", folder)
	same(t, "damage", []any{status, out.String(), said}, []any{24, string(pairs[:3*len(pairs)/5]),
		fmt.Sprintf("tb_replica: Damaged: the record at byte %d of %s/log\n", 8+3*size, folder)})
	status, said = ran(t, out, "script", "--copy", folder+"2")
	same(t, "none", []any{status, said},
		[]any{1, fmt.Sprintf("tb_replica: %s2/log: No such file or directory\n", folder)})
}

func TestCopyFrom(t *testing.T) {
	folder, out := made(t), &bytes.Buffer{}
	status, said := ran(t, out, "copy-from", folder, "--copy", folder+"2")
	same(t, "a copy", []any{status, out.String(), said}, []any{0, "position 5 place 50\n", ""})
	status, said = ran(t, out, "copy-from", folder, "--copy="+folder+"2")
	same(t, "once more", []any{status, said}, []any{1, fmt.Sprintf("tb_replica: %s2 has a copy already\n", folder)})
}

func TestHashes(t *testing.T) {
	t.Setenv("STAND_IN", "")
	folder := made(t)
	for _, c := range []struct{ at, position int }{{0, 5}, {5, 5}, {3, 3}} {
		out := &bytes.Buffer{}
		status, said := ran(t, out, "hashes", "--copy", folder, "--at", fmt.Sprint(c.at), "--", os.Args[0], "run", "64")
		log := entries.Hash{}
		for client := 1; client <= c.position; client++ {
			log = log.Next(register(byte(client)))
		}
		want := fmt.Sprintf("position %d log %s replies ", c.position, log)
		if status != 0 || said != "" || !strings.HasPrefix(out.String(), want) {
			t.Errorf("at %d: %d, %s%s", c.at, status, out, said)
		}
	}
	status, said := ran(t, io.Discard, "hashes", "--copy", folder, "--at", "6", "--", os.Args[0], "run", "64")
	same(t, "beyond", []any{status, said}, []any{1, fmt.Sprintf("tb_replica: %s has no position 6: it ends at 5\n", folder)})
}

// TestHashesOfOthers has servers that are wrong.
func TestHashesOfOthers(t *testing.T) {
	folder := made(t)
	const noReply = "the command wrote what is no reply to the next pair"
	for name, c := range map[string]struct {
		wrong string
		words []string
		want  string
	}{
		"no reply": {"reply", []string{os.Args[0]}, noReply},
		"more":     {"late", []string{os.Args[0]}, noReply},
		"status":   {"status", []string{os.Args[0]}, "tbs: Device"},
		"silent":   {"", []string{"sh", "-c", ""}, "the command ended before it had answered all"},
		"says":     {"", []string{"sh", "-c", "echo wrong >&2"}, "wrong"},
		"closes":   {"", []string{"sh", "-c", "exec sleep 60 >&-"}, "the command ended before it had answered all"},
		"none":     {"", []string{"/none/tbs"}, "/none/tbs does not start: No such file or directory"},
	} {
		t.Run(name, func(t *testing.T) {
			t.Setenv("STAND_IN", c.wrong)
			status, said := ran(t, io.Discard, append([]string{"hashes", "--copy", folder, "--"}, c.words...)...)
			same(t, "the end", []any{status, said}, []any{1, "tb_replica: " + c.want + "\n"})
		})
	}
	for until := time.Now().Add(time.Minute); ; time.Sleep(10 * time.Millisecond) {
		data := make([]byte, 1<<20)
		left := strings.Contains(string(data[:runtime.Stack(data, true)]), "manage.give")
		if !left {
			break
		}
		if time.Now().After(until) {
			t.Fatal("a goroutine is left")
		}
	}
}

const url = "etcd://a/bank"

// begun has a new engine with so many entries.
func begun(t *testing.T, count uint64) *inmemory.Log {
	t.Helper()
	engine = inmemory.New("n0", "n1", "n2")
	log := engine.Open()
	for number := uint64(1); number <= count; number++ {
		if _, err := log.Append(context.Background(), []byte("w"), number, []byte("it")); err != nil {
			t.Fatal(err)
		}
	}
	return log
}

func reports0(t *testing.T, log agreed.Log, name string, position, place int, more string) {
	t.Helper()
	said := fmt.Sprintf(`{"position": %d, "place": %d, "answered": %d, "clock": %d, "moment": 1, "replies": "ab%d", `+
		`"writer": "w", "address": "x:1"%s}`, position, place, position, time.Now().UnixNano(), position, more)
	if err := log.Report(context.Background(), name, []byte(said)); err != nil {
		t.Fatal(err)
	}
}

func TestStatus(t *testing.T) {
	log := begun(t, 3)
	reports0(t, log, "r1", 3, 3, "")
	reports0(t, log, "r0", 2, 2, `, "rotten": ["n0"]`)
	out := &bytes.Buffer{}
	status, said := ran(t, out, "status", "--log", url)
	want := "log etcd://a/bank trimmed to position 0 place 0\n" +
		"replica r0 at x:1 position 2 answered 2 hash ab2 writer w 0 s ago n0 is rotten\n" +
		"replica r1 at x:1 position 3 answered 3 hash ab3 writer w 0 s ago\n"
	same(t, "status", []any{status, out.String(), said}, []any{0, want, ""})
	engine.Fill("it is full")
	status, said = ran(t, io.Discard, "status", "--log", url)
	same(t, "full", []any{status, said}, []any{26, "tb_replica: LogFull: it is full\n"})
	engine.Fail(agreed.Failed(agreed.ErrNoLog, "it is away"))
	status, said = ran(t, io.Discard, "status", "--log", url)
	same(t, "away", []any{status, said}, []any{20, "tb_replica: NoLog: it is away\n"})
}

func TestStatusOfFaults(t *testing.T) {
	for name, c := range map[string]struct {
		more, want string
	}{
		"other replies": {`, "replies": "other"`, "22 Diverged: r0 and r1 have other replies up to position 3"},
		"diverged":      {`, "fault": "Diverged: at 3"`, "22 Diverged: r1 says: Diverged: at 3"},
		"other fault":   {`, "fault": "Ahead: it is"`, "0 "},
		"no text":       {`, "fault": 7`, "1 the report of r1 is none: forget it"},
		"no list":       {`, "rotten": "n0"`, "1 the report of r1 is none: forget it"},
		"no node":       {`, "rotten": [7]`, "1 the report of r1 is none: forget it"},
		"negative":      {`, "place": -1`, "1 the report of r1 is none: forget it"},
		"too large":     {`, "clock": 18446744073709551616`, "1 the report of r1 is none: forget it"},
		"no number":     {`, "moment": "7"`, "1 the report of r1 is none: forget it"},
		"null":          {`, "writer": null`, "1 the report of r1 is none: forget it"},
		"ahead":         {`, "moment": 18446744073709551615`, "0 "},
	} {
		t.Run(name, func(t *testing.T) {
			log := begun(t, 3)
			reports0(t, log, "r0", 3, 3, "")
			reports0(t, log, "r1", 3, 3, c.more)
			out := &bytes.Buffer{}
			status, said := ran(t, out, "status", "--log", url)
			same(t, "the end", fmt.Sprintf("%d %s", status, strings.TrimSpace(strings.TrimPrefix(said, "tb_replica: "))), c.want)
			same(t, "ahead", strings.Contains(out.String(), " s ahead of this computer's clock"), name == "ahead")
		})
	}
	for _, data := range []string{"", "7", "[]", "{}", "\xff", "null", strings.Repeat("[", 9999)} {
		log := begun(t, 0)
		if err := log.Report(context.Background(), "r0", []byte(data)); err != nil {
			t.Fatal(err)
		}
		status, said := ran(t, io.Discard, "status", "--log", url)
		same(t, data, []any{status, said}, []any{1, "tb_replica: the report of r0 is none: forget it\n"})
	}
}

func TestTrim(t *testing.T) {
	log := begun(t, 5)
	trims := func(words ...string) string {
		out := &bytes.Buffer{}
		status, said := ran(t, out, append([]string{"trim", "--log", url}, words...)...)
		return fmt.Sprintf("%d %s%s", status, out, said)
	}
	same(t, "none", trims(), "1 tb_replica: no replica is listed, and nothing is trimmed\n")
	reports0(t, log, "r0", 4, 4, "")
	reports0(t, log, "r1", 2, 2, "")
	same(t, "two", trims(), "0 entries are removed\n")
	same(t, "again", trims(), "0 nothing to trim: the log is trimmed to position 2\n")
	same(t, "forget", trims("--forget", "r1", "--forget", "r7"),
		"0 no replica is listed by the name r7\nentries are removed\n")
	reports0(t, log, "r1", 3, 3, "")
	same(t, "beyond", trims(), "1 tb_replica: nothing is trimmed: `trimmed` has position 4 at place 4, and r1 3 at 3: "+
		"forget it, or find who wrote that\n")
}

func TestRestore(t *testing.T) {
	begun(t, 0)
	folder := made(t)
	digest := entries.Hash{}
	for client := byte(1); client <= 5; client++ {
		digest = digest.Next(register(client))
	}
	out := &bytes.Buffer{}
	status, said := ran(t, out, "restore", "--log", url, "--copy", folder)
	same(t, "a log", []any{status, out.String(), said}, []any{0, fmt.Sprintf("position 5 log %s\n", digest), ""})
	log, ctx := engine.Open(), context.Background()
	head, err := log.Head(ctx, nil)
	wanted := entries.Head{ClientsMax: 64, Profile: 1}
	if err != nil || !wanted.HasSameRules(head) || bytes.Contains(head, []byte(`"x"`)) {
		t.Errorf("the head is %s, %v", head, err)
	}
	enough, next := errors.New("enough"), uint64(1)
	err = log.Read(ctx, 0, func(it agreed.Item) error {
		entry, err := entries.Parse(it.Data)
		if err != nil || entry.Number != next || !bytes.Equal(entry.Pairs, register(byte(next))) ||
			entry.Log.Position != next-1 {
			return fmt.Errorf("entry %d is %v, %v", next, entry, err)
		}
		if next++; next > 5 {
			return enough
		}
		return nil
	})
	same(t, "the entries", err, enough)
	status, said = ran(t, io.Discard, "restore", "--log", url, "--copy", folder)
	same(t, "once more", []any{status, said},
		[]any{1, "tb_replica: there is a log at etcd://a/bank: give the new one another name\n"})
}

// TestUnfinishedRestore has other rules until it has ended.
func TestUnfinishedRestore(t *testing.T) {
	before, after, err := heads(made(t))
	wanted := entries.Head{ClientsMax: 64, Profile: 1}
	if err != nil || wanted.HasSameRules(before) || !wanted.HasSameRules(after) {
		t.Errorf("%s, %s, %v", before, after, err)
	}
}

func TestArguments(t *testing.T) {
	for words, want := range map[string]string{
		"status":                                   "the following arguments are required: --log",
		"status --log x":                           "argument --log: 'x' is no etcd://HOST,../NAME or postgresql://HOST,../DATABASE/NAME",
		"status --log etcd://a/b c":                "unrecognized arguments: c",
		"status --log etcd://a/b --forget c":       "unrecognized arguments: --forget",
		"status --log etcd://a/b --log etcd://a/b": "argument --log: give it once",
		"status --log":                             "argument --log: expected one argument",
		"status --log etcd://a/b --log-user=":      "argument --log-user: it is empty",
		"status --log etcd://a/b --log-ca=":        "argument --log-ca: an empty word is no path",
		"status --log etcd://a/b --log-key k":      "--log-certificate and --log-key need each other, and --log-ca",
		"status --log etcd://a/b --standbys 70000": "argument --standbys: '70000' is no number from 0 to 65535",
		"trim --log etcd://a/b --forget \x01":      `argument --forget: '\x01' is no name`,
		"hashes --copy c":                          "the following arguments are required: COMMAND",
		"hashes --copy c --at -1 -- x":             "argument --at: expected one argument",
		"hashes --copy c --at x -- y":              "argument --at: 'x' is no number from 0 to 9223372036854775807",
		"copy-from --copy c":                       "the following arguments are required: FOLDER",
		"copy-from":                                "the following arguments are required: FOLDER, --copy",
		"script --copy c -- d":                     "unrecognized arguments: d",
		"restore --log postgresql://a/b/c":         "the following arguments are required: --copy",
		"script -x":                                "unrecognized arguments: -x",
	} {
		t.Run(words, func(t *testing.T) {
			list := strings.Fields(words)
			_, err := subcommands[list[0]].parse(list[1:])
			var usage *config.Usage
			if !errors.As(err, &usage) || !strings.HasSuffix(usage.Text, "\ntb-replica: error: "+want+"\n") {
				t.Errorf("got %v", err)
			}
		})
	}
	for _, word := range []string{"--help", "--version"} {
		out := &bytes.Buffer{}
		if status, _ := ran(t, out, "trim", word); status != 0 || !strings.Contains(out.String(), "tb-replica") {
			t.Errorf("%s: %d, %s", word, status, out)
		}
	}
	g, err := subcommands["hashes"].parse([]string{"--copy", "c", "tbs", "run", "64"})
	same(t, "a command without dashes", []any{g.Command, err}, []any{"[tbs run 64]", nil})
}
