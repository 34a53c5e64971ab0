package backend

import (
	"errors"
	"os"
	"path/filepath"
	"strings"
	"syscall"
	"testing"
	"time"

	"telovamish.org/server/internal/process"
	"telovamish.org/server/internal/report"
)

func TestWhichWordIsTheFile(t *testing.T) {
	for words, want := range map[string]int{
		"tbd run ledger 64":                         2,
		"tbd run ledger 64 2":                       2,
		"sh -c x tbd run ledger 64":                 5,
		"tbd run run 64":                            2,
		"tbd run ledger 64 --progress":              2,
		"tbd run ledger 64 2 --progress":            2,
		"tbd run ledger 64 --existing":              2,
		"tbd run ledger 64 2 --progress --existing": 2,
		"tbd run ledger 64 --progress 2":            0,
		"tbd run ./64 64":                           2,
		"tbd run ledger 64 x":                       0,
		"tbs run 64":                                0,
		"tbs run 64 1":                              0,
		"tbd check ledger":                          0,
		"tbd run ledger":                            0,
		"run ledger 64":                             0,
		"tbd run 64 64 1 1":                         0,
		"":                                          0,
	} {
		if got := journalAt(strings.Fields(words), "run"); got != want {
			t.Errorf("%s: %d, not %d", words, got, want)
		}
	}
}

func TestFaultNames(t *testing.T) {
	for line, want := range map[string]string{
		"tbd: Full":                          "Full",
		"tbd: Damaged: record 1, at byte 16": "Damaged",
		"a/b.c-d: NoMemory":                  "NoMemory",
		"tbd: full":                          "ProgramEnded",
		"tbd: Full and more":                 "ProgramEnded",
		"memory allocation failed":           "ProgramEnded",
		"":                                   "ProgramEnded",
	} {
		if got := FaultName(line); got != want {
			t.Errorf("%q: %s, not %s", line, got, want)
		}
	}
}

func TestNews(t *testing.T) {
	for line, want := range map[string][2]bool{ // whether it is news, and that the server is ready
		"tbd: made it":                       {true, false},
		"tbd: reading it: 5 of 9":            {true, false},
		"tbd: copied it":                     {true, false},
		"tbd: cut it":                        {true, false},
		"tbd: ready":                         {true, true},
		"tbd: ready: commit 12, time 345":    {true, true},
		"tbd: ready: commit 12":              {false, false},
		"tbd: ready and more":                {false, false},
		"tbd: Full":                          {false, false},
		"tbd: Device: made it no such thing": {false, false},
	} {
		found := news.FindStringSubmatch(line)
		if got := [2]bool{found != nil, found != nil && found[1] != ""}; got != want {
			t.Errorf("%q: %v, not %v", line, got, want)
		}
	}
}

// lines are those that a child prints.
type lines chan string

func (l lines) log() *report.Log {
	return report.NewTo("tb_listen", false, func(line []byte) { l <- strings.TrimSuffix(string(line), "\n") }, time.Now)
}

// child is a shell that runs a script, before the words of a server with a file.
func child(t *testing.T, script string, slow time.Duration) (*Child, lines, string) {
	t.Helper()
	said, file := make(lines, 100), filepath.Join(t.TempDir(), "ledger")
	words := []string{"sh", "-c", script, "sh", "run", file, "64"}
	return NewChild(words, slow, 0, said.log()), said, file
}

func (l lines) want(t *testing.T, want string) {
	t.Helper()
	select {
	case got := <-l:
		if !strings.Contains(got, want) {
			t.Errorf("%q, not %q", got, want)
		}
	case <-time.After(limit):
		t.Fatalf("no line with %q", want)
	}
}

const (
	serves = "echo tbd: made it >&2; echo tbd: ready >&2; "
	waits  = "cat > /dev/null"
)

// TestAServerThatIsStartedAgain is ended by signals: the second start makes no file, and later ones wait
// longer.
func TestAServerThatIsStartedAgain(t *testing.T) {
	c, said, file := child(t, serves+`echo "$*" >> `+"$2.words; "+"sleep 0.05; kill -KILL $$", time.Second)
	running := process.Goes(c.Run)
	said.want(t, "tbd: made it")
	<-c.Begun()
	said.want(t, "sh ended by SIGKILL, and is started again in 0.1 s")
	said.want(t, "tbd: made it")
	said.want(t, "sh ended by SIGKILL, and is started again in 0.5 s")
	c.Close()
	<-running.Done
	var ended *report.Ended
	if !errors.As(running.Result, &ended) || ended.Line != "sh ended by SIGKILL, and is not started again" {
		t.Error(running.Result)
	}
	text, err := os.ReadFile(file + ".words")
	want := "run " + file + " 64 --progress\nrun " + file + " 64 --progress --existing\n"
	if err != nil || !strings.HasPrefix(string(text), want) { // and a third, if the test was slow
		t.Errorf("%q, %v", text, err)
	}
}

func TestEnds(t *testing.T) {
	for _, row := range []struct {
		script, line string
		status       int
	}{
		{"exit 3", "sh ended with status 3", 3},
		{"exit 0", "sh ended with status 0", 1},
		{"echo tbd: Full >&2; exit 8", "tbd: Full", 8},
		{"echo tbd: Odd >&2; exit 0", "tbd: Odd", 1},
		{serves + "head -c 48 /dev/zero; sleep 9", "sh wrote what is no reply to a request that it was given", 1},
	} {
		c, _, _ := child(t, row.script, time.Second)
		err := c.Run()
		var ended *report.Ended
		if !errors.As(err, &ended) || ended.Line != row.line || ended.Status != row.status {
			t.Errorf("%s: %v", row.script, err)
		}
	}
	c := NewChild([]string{"/no/such/program"}, time.Second, 0, make(lines, 9).log())
	if err := c.Run(); err == nil || err.Error() != "/no/such/program does not start: No such file or directory" {
		t.Error(err)
	}
}

func TestItsInputEnds(t *testing.T) {
	c, _, _ := child(t, serves+waits, 10*time.Second)
	running := process.Goes(c.Run)
	<-c.Begun()
	c.Close()
	if <-running.Done; running.Result != nil {
		t.Error(running.Result)
	}
}

// TestAnEndBeforeItServes kills it: nothing was asked of it.
func TestAnEndBeforeItServes(t *testing.T) {
	c, _, _ := child(t, "sleep 60", time.Minute)
	running := process.Goes(c.Run)
	for {
		c.mu.Lock()
		p := c.process
		c.mu.Unlock()
		if p != nil {
			break
		}
		time.Sleep(time.Millisecond)
	}
	c.Close()
	if <-running.Done; running.Result != nil {
		t.Error(running.Result)
	}
}

// TestWhatItStarted ends with it, though it holds the pipes.
func TestWhatItStarted(t *testing.T) {
	c, _, file := child(t, serves+`sleep 60 & echo $! > $2.pid; exit 9`, 100*time.Millisecond)
	if err := c.Run(); err == nil {
		t.Fatal("no end")
	}
	text, err := os.ReadFile(file + ".pid")
	if err != nil {
		t.Fatal(err)
	}
	pid := strings.TrimSpace(string(text))
	for until := time.Now().Add(limit); ; time.Sleep(10 * time.Millisecond) {
		stat, err := os.ReadFile("/proc/" + pid + "/stat")
		if err != nil || strings.Contains(string(stat), ") Z ") {
			return
		}
		if time.Now().After(until) {
			t.Fatalf("%s", stat)
		}
	}
}

func TestTheLastTime(t *testing.T) {
	for _, row := range []struct {
		script, line string
		status       int
	}{
		{"true", "sh check FILE prints no last time", 1},
		{"echo last time 1x", "sh check FILE prints no last time", 1},
		{"echo last time -1", "sh check FILE prints no last time", 1},
		{"echo last time 123456789012345678901", "sh check FILE prints no last time", 1},
		{"echo tbd: Usage >&2; exit 2", "tbd: Usage", 2},
		{"exit 3", "sh ended with status 3", 3},
		{"kill -KILL $$", "sh ended by SIGKILL", 1},
		{"echo last time 99999999999999999999", "the ledger's last time is ", 1},
	} {
		c, _, file := child(t, row.script, time.Second)
		if err := os.WriteFile(file, make([]byte, emptyMax), 0o600); err != nil {
			t.Fatal(err)
		}
		var ended *report.Ended
		err := c.Run()
		line := strings.ReplaceAll(row.line, "FILE", file)
		if !errors.As(err, &ended) || !strings.HasPrefix(ended.Line, line) || ended.Status != row.status {
			t.Errorf("%s: %v", row.script, err)
		}
	}
}

func TestALongPauseIsReported(t *testing.T) {
	now := time.Date(2026, 12, 1, 8, 0, 0, 0, time.UTC)
	for gap, want := range map[time.Duration]string{
		24*time.Hour - time.Second: "",
		36 * time.Hour: "the clock is 1.5 days ahead of the ledger's last time, 2026-11-29T20:00:00Z: if it is " +
			"wrong, end tb_listen before a request comes, which would move the ledger's time there",
		-time.Hour: "",
	} {
		said := make(lines, 1)
		c := NewChild([]string{"tbd"}, time.Second, 0, said.log())
		c.reportGap(now.Add(-gap).UnixNano(), now)
		if want != "" {
			said.want(t, want)
		} else if len(said) > 0 {
			t.Errorf("%v: %q", gap, <-said)
		}
	}
}

// TestCommits counts those of a process that writes as tbd does: each is a latch more than the file grows.
func TestCommits(t *testing.T) {
	python := `import os, sys
out = os.open(sys.argv[1], os.O_RDWR | os.O_CREAT)
START
os.write(2, b'tbd: ready\n'); os.read(0, 1)
COMMITS
os.write(1, b'a' * 3); os.read(0, 1)`
	commit := func(length string) string {
		return "os.pwrite(out, bytes(" + length + "), os.fstat(out).st_size); os.pwrite(out, b'....', 0)\n"
	}
	three := commit("5") + commit("70") + commit("9")
	for _, row := range []struct {
		start, commits string
		want           int64
	}{
		{"", three, 3},
		{"os.write(out, bytes(33)); os.ftruncate(out, 20)", three, 3},
		{"", "", 0},
		{"", "os.write(2, b'a line\\n')\n" + three, 3},
		{"", "os.pwrite(out, bytes(9), 200)", 0}, // a batch without its latch
	} {
		file := filepath.Join(t.TempDir(), "ledger")
		script := strings.NewReplacer("START", row.start, "COMMITS", row.commits).Replace(python)
		counts := newCommits(file)
		p, err := process.Start([]string{"python3", "-SEc", script, file}, counts.end)
		if err != nil {
			t.Fatal(err)
		}
		p.Stderr.Read(make([]byte, 100))
		counts.untilAsleep(t, p)
		counts.begin(p)
		if got, ok := counts.count(); got != 0 || !ok {
			t.Error(got, ok)
		}
		p.Stdin.Write([]byte("."))
		p.Stdout.Read(make([]byte, 100))
		counts.untilAsleep(t, p)
		if got, ok := counts.count(); got != row.want || !ok {
			t.Errorf("%+v: %d, %v", row, got, ok)
		}
		p.Stdin.Close()
		<-p.Exited
		if got, ok := counts.count(); got != row.want || !ok {
			t.Errorf("%+v, once it has ended: %d, %v", row, got, ok)
		}
		p.Close()
	}
}

func (c *commits) untilAsleep(t *testing.T, p *process.Process) {
	t.Helper()
	for until := time.Now().Add(limit); !isAsleep(p.Pid()); time.Sleep(time.Millisecond) {
		if time.Now().After(until) {
			t.Fatal("it does not wait")
		}
	}
}

func TestCommitsThatAreNotKnown(t *testing.T) {
	p, err := process.Start([]string{"sleep", "60"}, nil)
	if err != nil {
		t.Fatal(err)
	}
	defer p.Close()
	for _, file := range []string{"", "/nowhere/at/all"} {
		counts := newCommits(file)
		counts.begin(p)
		if got, ok := counts.count(); ok {
			t.Errorf("%q: %d", file, got)
		}
	}
	p.Kill()
	if <-p.Exited; p.Status() != -int(syscall.SIGKILL) {
		t.Error(p.Status())
	}
}

// TestAWriteBeyondTheLimitOfAFile fails, and the server reports why: no signal ends it.
func TestAWriteBeyondTheLimitOfAFile(t *testing.T) {
	file := filepath.Join(t.TempDir(), "it")
	c := NewChild([]string{"sh", "-c", "ulimit -f 0; exec dd if=/dev/zero of=" + file + " bs=4096 count=1"}, time.Second, 0,
		make(lines, 9).log())
	if err := c.Run(); err == nil || strings.Contains(err.Error(), "SIG") {
		t.Error(err)
	}
}
