package main

import (
	"bytes"
	"context"
	"crypto/tls"
	"crypto/x509"
	"encoding/hex"
	"encoding/json"
	"errors"
	"fmt"
	"os"
	"runtime"
	"strings"
	"sync"
	"time"

	"telovamish.org/tbclient"
)

var features = []string{"unix", "tcp", "addresses", "tls", "parallel", "cancel", "shared"}

// runner has the transports and sessions by the names that the kit gave them.
type runner struct {
	calls map[string]func(object) (any, error)

	mu         sync.Mutex // calls may go on at once
	transports map[string]*tbclient.Socket
	sessions   map[string]*tbclient.Session
	shared     map[string]*tbclient.Client
	begun      map[string]*begunCall
}

func newRunner() *runner {
	r := &runner{
		transports: map[string]*tbclient.Socket{},
		sessions:   map[string]*tbclient.Session{},
		shared:     map[string]*tbclient.Client{},
		begun:      map[string]*begunCall{},
	}
	r.calls = map[string]func(object) (any, error){
		"hello":    r.hello,
		"reset":    r.reset,
		"connect":  r.connect,
		"open":     r.open,
		"register": r.register,
		"load":     r.load,
		"resume":   r.resume,
		"prepare":  r.prepare,
		"retry":    r.retry,
		"ask":      r.ask,
		"saved":    r.saved,
		"save":     r.save,
		"in_doubt": r.inDoubt,
		"close":    r.close,
		"drop":     r.drop,
		"ids":      r.ids,
		"parallel": r.parallel,
		"share":    r.share,
		"begin":    r.begin,
		"end":      r.end,
		"leave":    r.leave,
	}
	return r
}

// answer makes a call.
func (r *runner) answer(line object) object {
	call, isKnown := r.calls[text(line["do"])]
	if !isKnown {
		return object{"unsupported": fmt.Sprintf("no call %v", line["do"])}
	}
	return answerOf(func() (any, error) { return call(line) })
}

func answerOf(call func() (any, error)) object {
	value, err := call()
	if err == nil {
		return object{"ok": value}
	}
	var (
		ended   endedCall
		never   unrepresentable
		unknown unsupported
	)
	switch {
	case errors.As(err, &ended):
		return object(ended)
	case errors.As(err, &never):
		return object{"unrepresentable": never.Error()}
	case errors.As(err, &unknown):
		return object{"unsupported": unknown.Error()}
	}
	if shown := shownError(err); shown != nil {
		return object{"error": shown}
	}
	return object{"unsupported": "an error that is none of the client: " + err.Error()}
}

func text(given any) string {
	value, _ := given.(string)
	return value
}

// named is what has the name that this field of a line gives.
func named[T any](r *runner, all map[string]T, line object, field string) (T, error) {
	r.mu.Lock()
	defer r.mu.Unlock()
	found, isThere := all[text(line[field])]
	if !isThere {
		return found, unsupported(fmt.Sprintf("no %s %v", field, line[field]))
	}
	return found, nil
}

func (r *runner) session(line object) (*tbclient.Session, error) {
	return named(r, r.sessions, line, "session")
}

func (r *runner) transport(line object) (*tbclient.Socket, error) {
	return named(r, r.transports, line, "transport")
}

func (r *runner) keep(line object, session *tbclient.Session) {
	r.mu.Lock()
	defer r.mu.Unlock()
	r.sessions[text(line["session"])] = session
}

// within is the context of a call: the caller's own limit if it has one.
func within(ctx context.Context, line object) (context.Context, context.CancelFunc, error) {
	if line["within"] == nil {
		return ctx, func() {}, nil
	}
	limit, err := secondsOf(line["within"])
	ctx, cancel := context.WithTimeout(ctx, limit)
	return ctx, cancel, err
}

// Transports

func (r *runner) hello(object) (any, error) {
	language := "Go " + strings.TrimPrefix(runtime.Version(), "go")
	return object{"protocol": 1, "client": "tbclient", "language": language, "features": features}, nil
}

func (r *runner) reset(object) (any, error) {
	r.mu.Lock()
	defer r.mu.Unlock()
	for name, transport := range r.transports {
		transport.Close()
		delete(r.transports, name)
	}
	for name := range r.sessions {
		delete(r.sessions, name)
	}
	for name, call := range r.begun {
		call.cancel()
		delete(r.begun, name)
	}
	for name, client := range r.shared {
		go client.Close() // a request that is in flight has no reply any more
		delete(r.shared, name)
	}
	return nil, nil
}

func (r *runner) connect(line object) (any, error) {
	given, _ := line["addresses"].([]any)
	addresses, err := allOf(given, addressOf)
	if err != nil {
		return nil, err
	}
	var options []tbclient.SocketOption
	if limit, isGiven := line["timeout"]; isGiven {
		timeout, err := secondsOf(limit)
		if err != nil {
			return nil, err
		}
		options = append(options, tbclient.WithTimeout(timeout))
	}
	if given, isGiven := line["tls"].(object); isGiven {
		config, err := configOf(given)
		if err != nil {
			return nil, err
		}
		options = append(options, tbclient.WithTLS(config))
	}
	transport, err := tbclient.NewSocket(addresses, options...)
	if err != nil {
		return nil, err
	}
	r.mu.Lock()
	defer r.mu.Unlock()
	r.transports[text(line["transport"])] = transport
	return nil, nil
}

func addressOf(given any) (tbclient.Address, error) {
	address, _ := given.(object)
	if path, isUnix := address["unix"].(string); isUnix {
		return tbclient.Unix(path), nil
	}
	port, err := intOf(address["port"])
	return tbclient.TCP(text(address["host"]), port), err
}

func configOf(given object) (*tls.Config, error) {
	authority, err := os.ReadFile(text(given["ca"]))
	if err != nil {
		return nil, err
	}
	config := &tls.Config{RootCAs: x509.NewCertPool()}
	config.RootCAs.AppendCertsFromPEM(authority)
	if path, isGiven := given["cert"].(string); isGiven {
		pair, err := tls.LoadX509KeyPair(path, text(given["key"]))
		if err != nil {
			return nil, err
		}
		config.Certificates = []tls.Certificate{pair}
	}
	return config, nil
}

// Sessions

// options are those of a session, and its transport.
func (r *runner) options(line object) (*tbclient.Socket, []tbclient.SessionOption, error) {
	var options []tbclient.SessionOption
	if given, isGiven := line["client"]; isGiven {
		client, err := uint128Of(given)
		if err != nil {
			return nil, nil, err
		}
		options = append(options, tbclient.WithClient(client))
	}
	if given, isGiven := line["attempts"]; isGiven {
		attempts, err := intOf(given)
		if err != nil {
			return nil, nil, err
		}
		options = append(options, tbclient.WithAttempts(attempts))
	}
	if given, isGiven := line["pause"]; isGiven {
		pause, err := secondsOf(given)
		if err != nil {
			return nil, nil, err
		}
		options = append(options, tbclient.WithPause(pause))
	}
	transport, err := r.transport(line)
	return transport, options, err
}

func (r *runner) open(line object) (any, error) {
	transport, options, err := r.options(line)
	if err != nil {
		return nil, err
	}
	session, err := tbclient.NewSession(transport, options...)
	if err != nil {
		return nil, err
	}
	r.keep(line, session)
	return object{"client": session.Client().String()}, nil
}

func (r *runner) register(line object) (any, error) {
	transport, options, err := r.options(line)
	if err != nil {
		return nil, err
	}
	ctx, cancel, err := within(context.Background(), line)
	if err != nil {
		return nil, err
	}
	defer cancel()
	session, err := tbclient.Register(ctx, transport, options...)
	if err != nil {
		return nil, err
	}
	r.keep(line, session)
	saved := session.Saved()
	return object{"client": saved.Client.String(), "session": fmt.Sprint(saved.Session)}, nil
}

func (r *runner) load(line object) (any, error) {
	transport, options, err := r.options(line)
	if err != nil {
		return nil, err
	}
	session, err := tbclient.Load(transport, text(line["path"]), options...)
	if err != nil {
		return nil, err
	}
	r.keep(line, session)
	return shownSaved(session.Saved()), nil
}

func (r *runner) resume(line object) (any, error) {
	transport, options, err := r.options(line)
	if err != nil {
		return nil, err
	}
	saved, err := savedOf(line["saved"])
	if err != nil {
		return nil, err
	}
	session, err := tbclient.Resume(transport, saved, options...)
	if err != nil {
		return nil, err
	}
	r.keep(line, session)
	return shownSaved(session.Saved()), nil
}

func savedOf(given any) (saved tbclient.Saved, err error) {
	fields, _ := given.(object)
	if saved.Client, err = uint128Of(fields["client"]); err != nil {
		return saved, err
	}
	session, err := integerOf(fields["session"], 64)
	if err != nil {
		return saved, err
	}
	number, err := integerOf(fields["number"], 32)
	if err != nil {
		return saved, err
	}
	saved.Session, saved.Number = session.Uint64(), uint32(number.Uint64())
	saved.Pending, err = hex.DecodeString(text(fields["pending"]))
	return saved, err
}

func (r *runner) prepare(line object) (any, error) {
	session, err := r.session(line)
	if err != nil {
		return nil, err
	}
	request, err := requestOf(line["operation"], itemsOf(line))
	if err != nil {
		return nil, err
	}
	err = session.Prepare(request)
	if line["changes"] == true {
		change(request)
	}
	return nil, err
}

// change changes a caller's items after a call.
func change(request tbclient.Request) {
	switch items := request.(type) {
	case tbclient.CreateAccounts:
		for at := range items {
			items[at] = tbclient.Account{}
		}
	case tbclient.CreateTransfers:
		for at := range items {
			items[at] = tbclient.Transfer{}
		}
	case tbclient.LookupAccounts:
		for at := range items {
			items[at] = tbclient.Uint128{}
		}
	case tbclient.LookupTransfers:
		for at := range items {
			items[at] = tbclient.Uint128{}
		}
	}
}

func itemsOf(line object) any {
	if items, isGiven := line["items"]; isGiven {
		return items
	}
	return []any{}
}

func (r *runner) retry(line object) (any, error) {
	session, err := r.session(line)
	if err != nil {
		return nil, err
	}
	ctx, cancel, err := within(context.Background(), line)
	if err != nil {
		return nil, err
	}
	defer cancel()
	answer, err := session.Retry(ctx)
	if err != nil {
		return nil, err
	}
	if line["require_ok"] == true {
		if err := answer.Err(); err != nil {
			return nil, err
		}
	}
	return shownAnswer(answer), nil
}

// asking is what a session and a shared client can be asked for.
type asking interface {
	CreateAccounts(context.Context, []tbclient.Account) (tbclient.AccountResults, error)
	CreateTransfers(context.Context, []tbclient.Transfer) (tbclient.TransferResults, error)
	LookupAccounts(context.Context, []tbclient.Uint128) ([]tbclient.Account, error)
	LookupTransfers(context.Context, []tbclient.Uint128) ([]tbclient.Transfer, error)
}

func (r *runner) ask(line object) (any, error) {
	if _, isShared := line["shared"]; isShared {
		client, err := r.client(line)
		if err != nil {
			return nil, err
		}
		return askOf(client, line)
	}
	session, err := r.session(line)
	if err != nil {
		return nil, err
	}
	if line["operation"] != "register" && line["operation"] != nil {
		return askOf(session, line)
	}
	request, err := requestOf(line["operation"], itemsOf(line))
	if err != nil {
		return nil, err
	}
	if err := session.Prepare(request); err != nil {
		return nil, err
	}
	answer, err := session.Retry(context.Background())
	return shownAnswer(answer), err
}

func askOf(session asking, line object) (any, error) {
	return askWithin(context.Background(), session, line)
}

func askWithin(ctx context.Context, session asking, line object) (any, error) {
	request, err := requestOf(line["operation"], itemsOf(line))
	if err != nil {
		return nil, err
	}
	ctx, cancel, err := within(ctx, line)
	if err != nil {
		return nil, err
	}
	defer cancel()
	required := line["require_ok"] == true
	switch given := request.(type) {
	case tbclient.CreateAccounts:
		results, err := session.CreateAccounts(ctx, given)
		return asked("results", results, err, required, shownResults[tbclient.CreateAccountResult], results.Err)
	case tbclient.CreateTransfers:
		results, err := session.CreateTransfers(ctx, given)
		return asked("results", results, err, required, shownResults[tbclient.CreateTransferResult], results.Err)
	case tbclient.LookupAccounts:
		found, err := session.LookupAccounts(ctx, given)
		return object{"records": shownAll(found, shownAccount)}, err
	case tbclient.LookupTransfers:
		found, err := session.LookupTransfers(ctx, given)
		return object{"records": shownAll(found, shownTransfer)}, err
	}
	return nil, unsupported("no such operation")
}

func asked[T any](name string, said T, err error, required bool, shown func(T) []any, test func() error) (any, error) {
	if err == nil && required {
		err = test()
	}
	return object{name: shown(said)}, err
}

func (r *runner) saved(line object) (any, error) {
	session, err := r.session(line)
	if err != nil {
		return nil, err
	}
	return shownSaved(session.Saved()), nil
}

func (r *runner) save(line object) (any, error) {
	session, err := r.session(line)
	if err != nil {
		return nil, err
	}
	return nil, session.Save(text(line["path"]))
}

func (r *runner) inDoubt(line object) (any, error) {
	session, err := r.session(line)
	if err != nil {
		return nil, err
	}
	asked, isThere := session.InDoubt()
	if !isThere {
		return nil, nil
	}
	return shownAsked(asked), nil
}

func (r *runner) close(line object) (any, error) {
	if _, isSession := line["session"]; isSession {
		session, err := r.session(line)
		if err != nil {
			return nil, err
		}
		return nil, session.Close()
	}
	if _, isShared := line["shared"]; isShared {
		client, err := r.client(line)
		if err == nil {
			client.Close()
		}
		return nil, err
	}
	transport, err := r.transport(line)
	if err != nil {
		return nil, err
	}
	return nil, transport.Close()
}

func (r *runner) drop(line object) (any, error) {
	r.mu.Lock()
	defer r.mu.Unlock()
	delete(r.sessions, text(line["session"]))
	return nil, nil
}

// Ids, and calls at once

func (r *runner) ids(line object) (any, error) {
	if times, isGiven := line["times"].([]any); isGiven {
		return seamIDs(times, line["random"])
	}
	threads, count := 1, 1
	var err error
	if given, isGiven := line["threads"]; isGiven {
		if threads, err = intOf(given); err != nil {
			return nil, err
		}
	}
	if given, isGiven := line["count"]; isGiven {
		if count, err = intOf(given); err != nil {
			return nil, err
		}
	}
	made := make([][]string, threads)
	together(threads, func(at int) {
		for number := 0; number < count/threads; number++ {
			made[at] = append(made[at], tbclient.ID().String())
		}
	})
	all := []string{}
	for _, ids := range made {
		all = append(all, ids...)
	}
	return all, nil
}

// seamIDs makes an id for each of some times, with what a source of random bytes gives in turn.
func seamIDs(times []any, random any) (any, error) {
	var drawn bytes.Buffer
	list, _ := random.([]any)
	for _, item := range list {
		data, err := hex.DecodeString(text(item))
		if err != nil {
			return nil, err
		}
		drawn.Write(data)
	}
	var now time.Time
	ids := tbclient.NewIDs(func() time.Time { return now }, &drawn)
	made := []string{}
	for _, item := range times {
		number, _ := item.(json.Number)
		milliseconds, err := number.Int64()
		if err != nil {
			return nil, err
		}
		now = time.UnixMilli(milliseconds)
		made = append(made, ids.Next().String())
	}
	return made, nil
}

func (r *runner) parallel(line object) (any, error) {
	calls, _ := line["calls"].([]any)
	answers := make([]object, len(calls))
	together(len(calls), func(at int) {
		call, _ := calls[at].(object)
		answers[at] = r.answer(call)
	})
	return answers, nil
}

// together runs a number of goroutines, and waits for all.
func together(count int, one func(at int)) {
	var all sync.WaitGroup
	for at := 0; at < count; at++ {
		all.Add(1)
		go func(at int) {
			defer all.Done()
			one(at)
		}(at)
	}
	all.Wait()
}
