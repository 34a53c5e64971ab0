//go:build kit

package main

import (
	"flag"
	"fmt"
	"os"
	"path/filepath"
	"testing"
)

// TestMain has each process write what it reached to a file of its own in the folder PROFILES.
func TestMain(m *testing.M) {
	flag.Parse()
	flag.Set("test.coverprofile", filepath.Join(os.Getenv("PROFILES"), fmt.Sprint(os.Getpid())))
	os.Exit(m.Run())
}

// TestRunner is the runner, for the kit: tools/covered.py measures what its scenarios reach.
func TestRunner(t *testing.T) {
	if err := run(); err != nil {
		t.Fatal(err)
	}
}
