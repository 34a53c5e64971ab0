//go:build unix

package tbclient_test

import (
	"bufio"
	"context"
	"errors"
	"flag"
	"fmt"
	"io"
	"math/rand"
	"os"
	"os/exec"
	"path/filepath"
	"reflect"
	"strconv"
	"strings"
	"sync"
	"syscall"
	"testing"
	"time"

	tb "telovamish.org/tbclient"
)

var kills = flag.Int("kills", 5, "how often the program and its child are killed")

const (
	helping = "TB_OPEN_FILE" // the file of the process that is killed
	workers = 4              // its goroutines
)

// standIn is the stand-in for tbd of the client in Python.
var standIn, _ = filepath.Abs("../python/tests/stand_in_tbd.py")

// script is a program of the shell.
func script(t *testing.T, lines ...string) string {
	t.Helper()
	path := filepath.Join(t.TempDir(), "tbd")
	text := "#!/bin/sh\n" + strings.Join(lines, "\n") + "\n"
	if err := os.WriteFile(path, []byte(text), 0o755); err != nil {
		t.Fatal(err)
	}
	return path
}

// keeper is tbd of the variable TBD, or the stand-in, which fails as it is told.
func keeper(t *testing.T, fail string) string {
	t.Helper()
	if tbd := os.Getenv("TBD"); tbd != "" && fail == "" {
		return tbd
	}
	return script(t, fmt.Sprintf(`FAIL='%s' exec python3 -SE '%s' "$@"`, fail, standIn))
}

func quiet(string) {}

// opened is the client of a file, with the accounts 1 and 2.
func opened(t *testing.T, path string, options ...tb.OpenOption) *tb.Client {
	t.Helper()
	client, err := tb.Open(background, path, append([]tb.OpenOption{tb.WithReport(quiet)}, options...)...)
	if err != nil {
		t.Fatal(err)
	}
	t.Cleanup(client.Close)
	if _, err := client.CreateAccounts(background, bothAccounts()); err != nil {
		t.Fatal(err)
	}
	return client
}

func bothAccounts() []tb.Account {
	return []tb.Account{
		{ID: tb.ToUint128(1), Ledger: 700, Code: 10}, {ID: tb.ToUint128(2), Ledger: 700, Code: 10},
	}
}

// move makes a transfer of 1 that has to be new.
func move(t *testing.T, client *tb.Client) {
	t.Helper()
	results, err := client.CreateTransfers(background, []tb.Transfer{sale(1)})
	if err != nil || len(results) != 0 {
		t.Error(results, err)
	}
}

// serving are the processes that serve a file.
func serving(path string) (found []int) {
	commands, _ := filepath.Glob("/proc/[0-9]*/cmdline")
	for _, command := range commands {
		text, _ := os.ReadFile(command)
		if strings.Contains(string(text), "\x00run\x00"+path+"\x00") {
			number, _ := strconv.Atoi(filepath.Base(filepath.Dir(command)))
			found = append(found, number)
		}
	}
	return found
}

func killAll(processes []int) {
	for _, process := range processes {
		syscall.Kill(process, syscall.SIGKILL)
	}
}

func fileIn(t *testing.T) string { return filepath.Join(t.TempDir(), "books.tbk") }

func TestOpenMakesAFileAndFindsItAgain(t *testing.T) {
	path, program := fileIn(t), tb.WithProgram(keeper(t, ""))
	var lines []string
	report := tb.WithReport(func(line string) { lines = append(lines, line) })
	client := opened(t, path, program, report)
	move(t, client)
	client.Close()
	if left := serving(path); len(left) != 0 {
		t.Error("a child is left", left)
	}
	client = opened(t, path, program, report, tb.WithExisting())
	if sum := total(t, client); sum != tb.ToUint128(1) {
		t.Error(sum)
	}
	if wanted := []string{"tbd: made " + path}; !reflect.DeepEqual(lines, wanted) {
		t.Error(lines)
	}
}

func TestOpenOfAMissingFileMakesNone(t *testing.T) {
	path := fileIn(t)
	_, err := tb.Open(background, path, tb.WithProgram(keeper(t, "")), tb.WithExisting())
	var fault *tb.ProgramError
	if !errors.As(err, &fault) || fault.Name() != "Device" || fault.Status != 1 {
		t.Error(err)
	}
	if _, err := os.Stat(path); err == nil {
		t.Error("it was made")
	}
}

func TestOpenFindsTheProgram(t *testing.T) {
	path := keeper(t, "Full:8:99")
	for _, where := range []string{"option", "variable", "path"} {
		t.Run(where, func(t *testing.T) {
			t.Setenv("TBD", "")
			var options []tb.OpenOption
			switch where {
			case "option":
				options = append(options, tb.WithProgram(path))
			case "variable":
				t.Setenv("TBD", path)
			case "path":
				t.Setenv("PATH", filepath.Dir(path)+":"+os.Getenv("PATH"))
			}
			opened(t, fileIn(t), options...)
		})
	}
}

func TestOpenSaysWhatToInstall(t *testing.T) {
	t.Setenv("PATH", t.TempDir())
	for _, given := range []string{"", "/nowhere/tbd"} {
		t.Setenv("TBD", given)
		_, err := tb.Open(background, fileIn(t))
		if !errors.Is(err, tb.ErrCannotStart) || !strings.Contains(err.Error(), "install the package telovamish") {
			t.Error(err)
		}
	}
}

func TestOpenRefusesWrongOptions(t *testing.T) {
	path := fileIn(t)
	for _, option := range []tb.OpenOption{
		tb.WithRules(65, 1), tb.WithRules(0, 1), tb.WithRules(64, 3), tb.WithLockTimeout(-1),
		tb.WithReport(nil), tb.WithProgress(nil), tb.WithProgram(""),
	} {
		if _, err := tb.Open(background, path, option); !errors.Is(err, tb.ErrInvalid) {
			t.Error(err)
		}
	}
	if _, err := tb.Open(background, ""); !errors.Is(err, tb.ErrInvalid) {
		t.Error(err)
	}
}

var reading = []string{"echo 'tbd: reading a.tbk, 64 of 900 MB' >&2", "echo 'tbd: reading a.tbk, 128 of 900 MB' >&2"}

func TestOpenReportsHowMuchWasRead(t *testing.T) {
	program := script(t, append(reading, `exec python3 -SE '`+standIn+`' "$@"`)...)
	var found [][2]int
	progress := func(done, size int) { found = append(found, [2]int{done, size}) }
	opened(t, fileIn(t), tb.WithProgram(program), tb.WithProgress(progress))
	if wanted := [][2]int{{64, 900}, {128, 900}, {900, 900}}; !reflect.DeepEqual(found, wanted) {
		t.Error(found)
	}
}

func TestOpenEndsWithItsContext(t *testing.T) {
	path, program := fileIn(t), script(t, append(reading, "exec sleep 1000")...)
	ctx, cancel := context.WithCancel(background)
	_, err := tb.Open(ctx, path, tb.WithProgram(program), tb.WithProgress(func(int, int) { cancel() }))
	if !errors.Is(err, tb.ErrCancelled) || !errors.Is(err, tb.ErrNotSent) {
		t.Error(err)
	}
}

func TestOpenOfAChildThatIsKilledAtEachStart(t *testing.T) {
	_, err := tb.Open(background, fileIn(t), tb.WithProgram(script(t, "kill -9 $$")))
	if !errors.Is(err, tb.ErrCannotStart) || !strings.Contains(err.Error(), "each of 5 times") {
		t.Error(err)
	}
}

// TestCallGetsItsFirstReplyThoughTheChildIsKilled: `exists` would be the reply to other bytes, or in
// another session.
func TestCallGetsItsFirstReplyThoughTheChildIsKilled(t *testing.T) {
	for _, place := range []string{"read", "half", "kept", "part", "told"} {
		t.Run(place, func(t *testing.T) {
			client := opened(t, fileIn(t), tb.WithProgram(keeper(t, "SIGKILL:"+place+":3")))
			for number := 0; number < 6; number++ {
				move(t, client)
			}
			if sum := total(t, client); sum != tb.ToUint128(6) {
				t.Error(sum)
			}
		})
	}
}

// TestRestartMakesNoOtherLedger: in another one each id would be accepted again.
func TestRestartMakesNoOtherLedger(t *testing.T) {
	path := fileIn(t)
	client := opened(t, path, tb.WithProgram(keeper(t, "")))
	if err := os.Rename(path, path+".old"); err != nil {
		t.Fatal(err)
	}
	killAll(serving(path))
	transfers := []tb.Transfer{sale(1)}
	_, err := client.CreateTransfers(background, transfers)
	if _, missing := os.Stat(path); !errors.Is(err, tb.ErrProgramEnded) || !os.IsNotExist(missing) {
		t.Error(err, missing)
	}
	if err := os.Rename(path+".old", path); err != nil {
		t.Fatal(err)
	}
	if results, err := client.CreateTransfers(background, transfers); err != nil || len(results) != 0 {
		t.Error(results, err)
	}
}

func TestFaultAmidTheServiceIsPassedOn(t *testing.T) {
	client := opened(t, fileIn(t), tb.WithProgram(keeper(t, "Full:8:3")))
	transfers := []tb.Transfer{sale(1)}
	_, err := client.CreateTransfers(background, transfers)
	var fault *tb.ProgramError
	if !errors.As(err, &fault) || fault.Fault != "Full" || fault.Status != 8 || errors.Is(err, tb.ErrNotSent) {
		t.Error(err)
	}
	if results, err := client.CreateTransfers(background, transfers); err != nil || len(results) != 0 {
		t.Error(results, err)
	}
}

func TestOpenRefusesAFile(t *testing.T) {
	program := tb.WithProgram(keeper(t, ""))
	other, rules := fileIn(t), fileIn(t)
	if err := os.WriteFile(other, []byte("no ledger, and not empty"), 0o600); err != nil {
		t.Fatal(err)
	}
	opened(t, rules, program).Close()
	for _, row := range []struct {
		path, name string
		status     int
	}{{other, "NotAJournal", 5}, {rules, "OtherRules", 7}} {
		_, err := tb.Open(background, row.path, program, tb.WithRules(2, 1))
		var fault *tb.ProgramError
		if !errors.As(err, &fault) || fault.Name() != row.name || fault.Status != row.status {
			t.Error(err)
		}
	}
}

func TestOpenOfAFileThatIsOpenElsewhere(t *testing.T) {
	path, program := fileIn(t), tb.WithProgram(keeper(t, ""))
	client := opened(t, path, program)
	owner := serving(path)
	_, err := tb.Open(background, path, program, tb.WithLockTimeout(0))
	var fault *tb.ProgramError
	if !errors.Is(err, tb.ErrLocked) || !errors.As(err, &fault) || fault.Status != 4 || fault.Owner != owner[0] {
		t.Error(err, owner)
	}
	time.AfterFunc(300*time.Millisecond, client.Close)
	move(t, opened(t, path, program, tb.WithLockTimeout(time.Minute)))
}

func TestGoroutinesShareAFile(t *testing.T) {
	client := opened(t, fileIn(t), tb.WithProgram(keeper(t, "")))
	var all sync.WaitGroup
	for number := 0; number < 8; number++ {
		all.Add(1)
		go func() {
			defer all.Done()
			for count := 0; count < 20; count++ {
				move(t, client)
			}
		}()
	}
	all.Wait()
	if sum := total(t, client); sum != tb.ToUint128(160) {
		t.Error(sum)
	}
	client.Close()
	if _, err := client.LookupAccounts(background, nil); !errors.Is(err, tb.ErrClosed) {
		t.Error(err)
	}
}

func TestOpenOfALedgerWhoseTimeIsAhead(t *testing.T) {
	line := fmt.Sprintf("echo 'tbd: ready: commit 1, time %d' >&2", time.Now().Add(time.Hour).UnixNano())
	program := tb.WithProgram(script(t, line, "exec cat > /dev/null"))
	if _, err := tb.Open(background, fileIn(t), program); !errors.Is(err, tb.ErrClockJumped) {
		t.Error(err)
	}
	for _, most := range []time.Duration{2 * time.Hour, -1} {
		client, err := tb.Open(background, fileIn(t), program, tb.WithAheadMax(most))
		if err != nil {
			t.Fatal(err)
		}
		client.Close()
	}
}

// TestMomentsNeverFall: each step is what the clock and the time that goes by rise by.
func TestMomentsNeverFall(t *testing.T) {
	for name, row := range map[string]struct {
		steps  [][2]int64
		wanted []uint64
	}{
		"as the clock": {[][2]int64{{5, 5}}, []uint64{105}},
		"set back":     {[][2]int64{{5, 5}, {-50, 1}, {0, 9}}, []uint64{105, 105, 105}},
		"set ahead":    {[][2]int64{{5000, 2000}, {1000000, 1000}}, []uint64{2102, 3103}},
	} {
		wall, running := int64(100), int64(7)
		next, goOn := tb.Moments(func() int64 { return wall }, func() int64 { return running })
		var found []uint64
		for _, step := range row.steps {
			wall, running = wall+step[0], running+step[1]
			found = append(found, next())
		}
		if !reflect.DeepEqual(found, row.wanted) {
			t.Error(name, found)
		}
		goOn(9000000)
		if goOn(8000000); next() != 9000000 {
			t.Error(name, next())
		}
	}
}

// TestHelper is no test: it is the program that TestKills kills. It makes the transfers 1 to COUNT,
// except those of the file MADE, in which each gets a line once its call has returned. When all are
// made it waits for the end of its input: it is there to be killed.
func TestHelper(t *testing.T) {
	path := os.Getenv(helping)
	if path == "" {
		return
	}
	count, _ := strconv.Atoi(os.Getenv("COUNT"))
	done := madeBy(os.Getenv("MADE"))
	made, err := os.OpenFile(os.Getenv("MADE"), os.O_WRONLY|os.O_CREATE|os.O_APPEND, 0o600)
	if err != nil {
		t.Fatal(err)
	}
	client := opened(t, path, tb.WithDropTorn(), tb.WithLockTimeout(time.Minute))
	ids := make(chan int)
	var all sync.WaitGroup
	for number := 0; number < workers; number++ {
		all.Add(1)
		go func() {
			defer all.Done()
			for id := range ids {
				it := sale(1)
				it.ID = tb.ToUint128(uint64(id))
				results, err := client.CreateTransfers(background, []tb.Transfer{it})
				isDoubtful := id <= len(done)+workers+1 // an id more waits for a goroutine
				if isDoubtful {
					results = results.Except(tb.TransferExists)
				}
				if err != nil || len(results) != 0 {
					t.Error(id, results, err)
				}
				fmt.Fprintln(made, id)
			}
		}()
	}
	for id := 1; id <= count; id++ {
		if !done[id] {
			ids <- id
		}
	}
	close(ids)
	all.Wait()
	io.Copy(io.Discard, os.Stdin)
}

// madeBy are the transfers whose calls returned.
func madeBy(path string) map[int]bool {
	made := map[int]bool{}
	file, err := os.Open(path)
	if err != nil {
		return made
	}
	defer file.Close()
	for lines := bufio.NewScanner(file); lines.Scan(); {
		id, _ := strconv.Atoi(lines.Text())
		made[id] = true
	}
	return made
}

// TestKills kills a program and its child amid transfers: each call that returned is there once, nothing
// is there twice, and no child is left.
func TestKills(t *testing.T) {
	path, made, count := fileIn(t), fileIn(t), 50**kills
	program := keeper(t, "")
	var input io.Closer
	start := func() *exec.Cmd {
		it := exec.Command(os.Args[0], "-test.run=^TestHelper$")
		it.Env = append(os.Environ(), helping+"="+path, "MADE="+made, "TBD="+program, fmt.Sprint("COUNT=", count))
		it.Stdout = os.Stderr
		var err error
		if input, err = it.StdinPipe(); err != nil {
			t.Fatal(err)
		}
		if err := it.Start(); err != nil {
			t.Fatal(err)
		}
		return it
	}
	it := start()
	defer func() { it.Process.Kill() }()
	for number := 0; number < 2**kills; number++ {
		waitUntil(t, func() bool { return len(madeBy(made)) > number*count/(2**kills+1) })
		time.Sleep(time.Duration(rand.Intn(20)) * time.Millisecond)
		if number%2 == 0 {
			killAll(serving(path))
			continue
		}
		it.Process.Kill()
		it.Wait()
		it = start()
	}
	input.Close()
	if err := it.Wait(); err != nil {
		t.Error(err)
	}
	waitUntil(t, func() bool { return len(serving(path)) == 0 })
	if found := len(madeBy(made)); found != count {
		t.Error(found, "calls returned")
	}
	client := opened(t, path, tb.WithProgram(program), tb.WithExisting())
	var ids []tb.Uint128
	for id := 1; id <= count; id++ {
		ids = append(ids, tb.ToUint128(uint64(id)))
	}
	found := 0
	for len(ids) > 0 {
		part := ids[:min(len(ids), tb.ItemsMax)]
		transfers, err := client.LookupTransfers(background, part)
		if err != nil {
			t.Fatal(err)
		}
		found, ids = found+len(transfers), ids[len(part):]
	}
	if sum := total(t, client); found != count || sum != tb.ToUint128(uint64(count)) {
		t.Error(found, sum)
	}
}

func min(one, other int) int {
	if one < other {
		return one
	}
	return other
}
