// Load is a closed loop of workers that each have one request under way, and an echo server to
// measure it by. It prints one line of JSON.
//
//	load [-workers N] [-connections N] [-items K] [-rest S] [-seconds S] [-warm S] [-pids A,B] ADDRESS
//	load [-workers N] [-items K] .. -- COMMAND [WORD ..]
//	load -echo ADDRESS
//
// ADDRESS is unix:PATH, tcp:HOST:PORT or tls:HOST:PORT of a listener (its certificate is not
// checked), or redis:PATH. A command is a ledger server, which gets the same requests by its pipes.
// A worker is a session of the ledger, and takes its connections in turn.
package main

import (
	"encoding/json"
	"flag"
	"fmt"
	"log"
	"os"
	"strings"
	"time"
)

type options struct {
	workers, connections, items int
	seconds, warm, rest         float64
	pids                        string
	isEcho                      bool
}

func main() {
	log.SetFlags(0)
	log.SetPrefix("load: ")
	var given options
	flag.IntVar(&given.workers, "workers", 1, "sessions, each with one request under way")
	flag.IntVar(&given.connections, "connections", 0, "of all workers (one of each)")
	flag.IntVar(&given.items, "items", 1, "transfers in a request")
	flag.Float64Var(&given.rest, "rest", 0, "seconds of each worker after a reply")
	flag.Float64Var(&given.seconds, "seconds", 1, "that are measured")
	flag.Float64Var(&given.warm, "warm", 0.3, "seconds before that")
	flag.StringVar(&given.pids, "pids", "", "processes whose CPU time is measured")
	flag.BoolVar(&given.isEcho, "echo", false, "serve at ADDRESS, and answer each request at once")
	flag.Parse()
	if flag.NArg() == 0 {
		log.Fatal("no address")
	}
	if err := run(given, flag.Args()); err != nil {
		log.Fatal(err)
	}
}

func run(given options, words []string) error {
	if given.isEcho {
		return echo(words[0])
	}
	if given.connections < given.workers {
		given.connections = given.workers
	}
	names := strings.FieldsFunc(given.pids, func(it rune) bool { return it == ',' })
	if len(words) > 1 || !strings.Contains(words[0], ":") {
		server, err := started(words)
		if err != nil {
			return err
		}
		defer server.end()
		return measured(given, append(names, fmt.Sprint(server.pid())), server.loop(given))
	}
	return measured(given, names, overSockets(given, words[0]))
}

// A loop connects its workers, and returns what runs them until a time.
type loop func() (until func(end time.Time) error, workers []*worker, err error)

// measured runs a loop, and prints what it did in the measured time.
func measured(given options, pids []string, begin loop) error {
	until, workers, err := begin()
	if err != nil {
		return err
	}
	first := time.Now().Add(duration(given.warm))
	last := first.Add(duration(given.seconds))
	used := cpuBetween(append([]string{fmt.Sprint(os.Getpid())}, pids...), first, last)
	if err := until(last); err != nil {
		return err
	}
	found := summary(workers, first, last)
	if found.Count == 0 {
		return fmt.Errorf("no request was answered")
	}
	for _, it := range <-used {
		found.CPU = append(found.CPU, float64(it)/1e3/float64(found.Count))
	}
	return json.NewEncoder(os.Stdout).Encode(found)
}

func duration(seconds float64) time.Duration {
	return time.Duration(seconds * float64(time.Second))
}
