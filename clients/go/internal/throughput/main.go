//go:build unix

// Throughput measures this client, for clients/throughput.py.
//
//	throughput measure sessions|shared PATH CALLERS ITEMS SECONDS    prints transfers a second, and CPU microseconds for each
//	throughput serve PATH                                            a server that accepts all and keeps nothing
package main

import (
	"context"
	"encoding/binary"
	"errors"
	"fmt"
	"io"
	"net"
	"os"
	"strconv"
	"sync"
	"sync/atomic"
	"syscall"
	"time"

	"telovamish.org/tbclient"
)

// The bytes of a frame's header, and of a record.
const headerSize, recordSize = 48, 128

const warm = 500 * time.Millisecond

var errUsage = errors.New("throughput measure sessions|shared PATH CALLERS ITEMS SECONDS, or throughput serve PATH")

func main() {
	if err := run(os.Args[1:]); err != nil {
		fmt.Fprintln(os.Stderr, err)
		os.Exit(1)
	}
}

func run(words []string) error {
	switch {
	case len(words) == 6 && words[0] == "measure":
		var numbers [3]int
		for at := range numbers {
			var err error
			if numbers[at], err = strconv.Atoi(words[3+at]); err != nil {
				return err
			}
		}
		return measure(words[1], words[2], numbers[0], numbers[1], time.Duration(numbers[2])*time.Second)
	case len(words) == 2 && words[0] == "serve":
		return serve(words[1])
	}
	return errUsage
}

// A call sends some transfers, and returns when they are made.
type call func(ctx context.Context, transfers []tbclient.Transfer) (tbclient.TransferResults, error)

// callers are so many calls: each of a session on a connection of its own, or all of one client.
func callers(ctx context.Context, kind, path string, count int) ([]call, error) {
	var all []call
	if _, err := begun(ctx, path); err != nil {
		return nil, err
	}
	switch kind {
	case "sessions":
		for len(all) < count {
			session, err := begun(ctx, path)
			if err != nil {
				return nil, err
			}
			all = append(all, session.CreateTransfers)
		}
	case "shared":
		client, err := tbclient.Connect(path)
		if err != nil {
			return nil, err
		}
		for len(all) < count {
			all = append(all, client.CreateTransfers)
		}
	default:
		return nil, errUsage
	}
	return all, nil
}

// measure prints what so many callers get done.
func measure(kind, path string, count, items int, span time.Duration) error {
	all, err := callers(context.Background(), kind, path, count)
	if err != nil {
		return err
	}
	if _, err := repeat(all, items, warm); err != nil {
		return err
	}
	began, used := time.Now(), cpuTime()
	calls, err := repeat(all, items, span)
	if err != nil {
		return err
	}
	made := float64(calls * int64(items))
	fmt.Println(made/time.Since(began).Seconds(), float64((cpuTime()-used).Microseconds())/made)
	return nil
}

// repeat has all callers call until a time has passed, and returns how often they did.
func repeat(all []call, items int, span time.Duration) (int64, error) {
	var (
		count atomic.Int64
		fault = make(chan error, len(all))
		done  sync.WaitGroup
		end   = time.Now().Add(span)
	)
	for _, it := range all {
		done.Add(1)
		go func(it call) {
			defer done.Done()
			for ; time.Now().Before(end); count.Add(1) {
				results, err := it(context.Background(), sales(items))
				if err == nil {
					err = results.Err()
				}
				if err != nil {
					fault <- err
					return
				}
			}
		}(it)
	}
	done.Wait()
	select {
	case err := <-fault:
		return 0, err
	default:
		return count.Load(), nil
	}
}

// cpuTime is what this process has taken.
func cpuTime() time.Duration {
	var used syscall.Rusage
	if err := syscall.Getrusage(syscall.RUSAGE_SELF, &used); err != nil {
		panic(err)
	}
	return time.Duration(used.Utime.Nano() + used.Stime.Nano())
}

// begun is a session on a connection of its own, and the two accounts.
func begun(ctx context.Context, path string) (*tbclient.Session, error) {
	socket, err := tbclient.NewSocket([]tbclient.Address{tbclient.Unix(path)}, tbclient.WithTimeout(time.Minute))
	if err != nil {
		return nil, err
	}
	session, err := tbclient.Register(ctx, socket)
	if err != nil {
		return nil, err
	}
	results, err := session.CreateAccounts(ctx, []tbclient.Account{
		{ID: tbclient.ToUint128(1), Ledger: 700, Code: 10},
		{ID: tbclient.ToUint128(2), Ledger: 700, Code: 10},
	})
	if err != nil {
		return nil, err
	}
	return session, results.Except(tbclient.AccountExists).Err()
}

func sales(count int) []tbclient.Transfer {
	sales := make([]tbclient.Transfer, count)
	for at := range sales {
		sales[at] = tbclient.Transfer{
			ID:              tbclient.ID(),
			DebitAccountID:  tbclient.ToUint128(1),
			CreditAccountID: tbclient.ToUint128(2),
			Amount:          tbclient.ToUint128(1),
			Ledger:          700,
			Code:            10,
		}
	}
	return sales
}

func serve(path string) error {
	listener, err := net.Listen("unix", path)
	if err != nil {
		return err
	}
	fmt.Println("listens on", path)
	var commit atomic.Uint64
	for {
		conn, err := listener.Accept()
		if err != nil {
			return err
		}
		go answer(conn, &commit)
	}
}

// answer replies to each request of a connection with an empty body.
func answer(conn net.Conn, commit *atomic.Uint64) {
	defer conn.Close()
	var header [headerSize]byte
	body := make([]byte, tbclient.ItemsMax*recordSize)
	for {
		if _, err := io.ReadFull(conn, header[:]); err != nil {
			return
		}
		length := binary.LittleEndian.Uint32(header[32:])
		if int(length) > len(body) {
			return
		}
		if _, err := io.ReadFull(conn, body[:length]); err != nil {
			return
		}
		number := commit.Add(1)
		if header[28] == byte(tbclient.OperationRegister) {
			binary.LittleEndian.PutUint64(header[16:], number)
		}
		binary.LittleEndian.PutUint32(header[32:], 0)
		binary.LittleEndian.PutUint64(header[36:], number)
		if _, err := conn.Write(header[:]); err != nil {
			return
		}
	}
}
