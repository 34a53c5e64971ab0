package tbclient_test

import (
	"os"
	"os/exec"
	"path/filepath"
	"regexp"
	"strings"
	"testing"
	"time"

	tb "telovamish.org/tbclient"
)

// TestProgramOfTheREADME builds the program as printed, kills it while its transfer has no reply, and
// runs it twice more, with a transfer of another client between the two; also with its session
// evicted before each.
func TestProgramOfTheREADME(t *testing.T) {
	program := built(t)
	t.Run("killed", func(t *testing.T) { runKilled(t, program, func(*ledger) {}) })
	t.Run("killed and evicted", func(t *testing.T) { runKilled(t, program, (*ledger).evict) })
}

func runKilled(t *testing.T, program string, meanwhile func(*ledger)) {
	server := newLedger(t, t.TempDir())
	folder := filepath.Dir(server.path)
	release := server.holds(130) // the transfer is made, and its reply does not come
	first := exec.Command(program)
	first.Dir = folder
	if err := first.Start(); err != nil {
		t.Fatal(err)
	}
	waitUntil(t, func() bool { _, last := server.came(); return last != nil && last[28] == 130 })
	if err := first.Process.Kill(); err != nil {
		t.Fatal(err)
	}
	first.Wait()
	release()
	for _, wanted := range []string{"credited: 100\n", "credited: 105\n"} {
		meanwhile(server)
		again := exec.Command(program)
		again.Dir = folder
		output, err := again.CombinedOutput()
		if err != nil || string(output) != wanted {
			t.Errorf("it prints %q, not %q, %v", output, wanted, err)
		}
		other, err := tb.Register(background, newSocket(t, server))
		if err != nil {
			t.Fatal(err)
		}
		if _, err := other.CreateTransfers(background, []tb.Transfer{sale(5)}); err != nil {
			t.Fatal(err)
		}
	}
	if len(server.transfers) != 3 {
		t.Errorf("%d transfers were made", len(server.transfers)-2)
	}
}

func waitUntil(t *testing.T, holds func() bool) {
	t.Helper()
	for deadline := time.Now().Add(5 * time.Minute); !holds(); time.Sleep(10 * time.Millisecond) {
		if time.Now().After(deadline) {
			t.Fatal("it does not come")
		}
	}
}

// TestOpenOfTheREADME compiles the lines on a file.
func TestOpenOfTheREADME(t *testing.T) {
	module(t, "package main\n\nimport (\n\t\"context\"\n\n\ttb \"telovamish.org/tbclient\"\n)\n\n"+
		"func main() {\n\tctx := context.Background()\n\t"+
		strings.ReplaceAll(strings.TrimSpace(shown(t, "ledger, err := ")), "\n", "\n\t")+
		"\n\t_, _ = accounts, err\n}\n")
}

// TestSharedClientOfTheREADME compiles the lines on a shared client.
func TestSharedClientOfTheREADME(t *testing.T) {
	module(t, "package main\n\nimport (\n\t\"context\"\n\n\ttb \"telovamish.org/tbclient\"\n)\n\n"+
		"func main() {\n\tctx, transfers := context.Background(), []tb.Transfer{}\n\t"+
		strings.ReplaceAll(strings.TrimSpace(shown(t, "client, err := ")), "\n", "\n\t")+
		"\n\t_, _ = results, err\n}\n")
}

// built is the README's program, as a module of its own.
func built(t *testing.T) string {
	t.Helper()
	folder := module(t, shown(t, "package main\n"))
	inside(t, folder, "go", "build", "-o", "sale", ".")
	return filepath.Join(folder, "sale")
}

// shown is the README's block that begins so.
func shown(t *testing.T, begins string) string {
	t.Helper()
	page, err := os.ReadFile("README.md")
	if err != nil {
		t.Fatal(err)
	}
	block := regexp.MustCompile("(?s)```go\n(" + begins + ".*?)```").FindSubmatch(page)
	if block == nil {
		t.Fatal("the README shows no such block: ", begins)
	}
	return string(block[1])
}

// module is the folder of a program that compiles, and has gofmt's layout.
func module(t *testing.T, program string) string {
	t.Helper()
	client, err := os.Getwd()
	if err != nil {
		t.Fatal(err)
	}
	folder := t.TempDir()
	if err := os.WriteFile(filepath.Join(folder, "main.go"), []byte(program), 0o600); err != nil {
		t.Fatal(err)
	}
	inside(t, folder, "go", "mod", "init", "sale")
	inside(t, folder, "go", "mod", "edit", "-require", "telovamish.org/tbclient@v0.0.0",
		"-replace", "telovamish.org/tbclient="+client)
	inside(t, folder, "go", "vet", ".")
	inside(t, folder, "gofmt", "-l", "-d", ".")
	return folder
}

func inside(t *testing.T, folder string, words ...string) {
	t.Helper()
	command := exec.Command(words[0], words[1:]...)
	command.Dir = folder
	command.Env = append(os.Environ(), "GOFLAGS=-mod=mod", "GOPROXY=off")
	if output, err := command.CombinedOutput(); err != nil || words[0] == "gofmt" && len(output) > 0 {
		t.Fatalf("%v: %v: %s", words, err, output)
	}
}
