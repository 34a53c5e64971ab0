// Appending puts entries into an agreed log that no replica reads, for tests of clusters: one after
// another, as a replica appends them.
//
//	appending [--user NAME] [--seconds SECONDS] LOG
//
// Standard input has the pairs of each entry, after their length (u32). With --seconds the last one is
// appended again and again, so long. It prints how many milliseconds each append took, and makes the log's
// head first, if there is none.
package main

import (
	"bufio"
	"context"
	"crypto/rand"
	"encoding/binary"
	"errors"
	"flag"
	"fmt"
	"io"
	"os"
	"time"

	"telovamish.org/server/internal/agreed"
	_ "telovamish.org/server/internal/agreed/etcd"
	_ "telovamish.org/server/internal/agreed/postgresql"
	"telovamish.org/server/internal/entries"
	"telovamish.org/server/internal/report"
)

func main() {
	user := flag.String("user", "", "the engine's user")
	seconds := flag.Float64("seconds", 0, "for which the last entry is appended again")
	flag.Parse()
	if err := run(flag.Arg(0), *user, time.Duration(*seconds*float64(time.Second))); err != nil {
		fmt.Fprintln(os.Stderr, err)
		os.Exit(1)
	}
}

// writer appends entries under its name.
type writer struct {
	log    agreed.Log
	name   entries.Writer
	number uint64
	out    *bufio.Writer
}

func run(url, user string, again time.Duration) error {
	log, err := agreed.Open(url, agreed.Access{User: user, Standbys: 1}, report.New("appending", false))
	if err != nil {
		return err
	}
	defer log.Close()
	w := &writer{log: log, out: bufio.NewWriter(os.Stdout)}
	defer w.out.Flush()
	if _, err := rand.Read(w.name[:]); err != nil {
		return err
	}
	if _, err := log.Head(context.Background(), []byte("rates")); err != nil {
		return err
	}
	pairs, err := w.appendAll(bufio.NewReaderSize(os.Stdin, 1<<20))
	for end := time.Now().Add(again); err == nil && time.Now().Before(end); {
		err = w.append(pairs)
	}
	return err
}

// appendAll appends what standard input has, and returns the last pairs.
func (w *writer) appendAll(from io.Reader) (pairs []byte, err error) {
	for {
		var length uint32
		if err := binary.Read(from, binary.LittleEndian, &length); err != nil {
			if errors.Is(err, io.EOF) {
				return pairs, nil
			}
			return nil, err
		}
		pairs = make([]byte, length)
		if _, err := io.ReadFull(from, pairs); err != nil {
			return nil, err
		}
		if err := w.append(pairs); err != nil {
			return nil, err
		}
	}
}

func (w *writer) append(pairs []byte) error {
	w.number++
	it := entries.Entry{Writer: w.name, Number: w.number, Pairs: pairs}
	data := it.Append(make([]byte, 0, entries.HeadSize+len(pairs)))
	began := time.Now()
	if _, err := w.log.Append(context.Background(), w.name[:], w.number, data); err != nil {
		return err
	}
	_, err := fmt.Fprintf(w.out, "%.4f\n", time.Since(began).Seconds()*1000)
	return err
}
