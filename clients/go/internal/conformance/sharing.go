package main

import (
	"context"
	"fmt"

	"telovamish.org/tbclient"
)

// begunCall is a call of a shared client that goes on.
type begunCall struct {
	cancel context.CancelFunc
	answer chan object
}

func (r *runner) client(line object) (*tbclient.Client, error) {
	return named(r, r.shared, line, "shared")
}

func (r *runner) share(line object) (any, error) {
	given, _ := line["addresses"].([]any)
	addresses, err := allOf(given, textOfAddress)
	if err != nil {
		return nil, err
	}
	var options []tbclient.ClientOption
	if limit, isGiven := line["timeout"]; isGiven {
		timeout, err := secondsOf(limit)
		if err != nil {
			return nil, err
		}
		options = append(options, tbclient.WithSocket(tbclient.WithTimeout(timeout)))
	}
	if many, isGiven := line["sessions"]; isGiven {
		sessions, err := intOf(many)
		if err != nil {
			return nil, err
		}
		options = append(options, tbclient.WithSessions(sessions))
	}
	client, err := tbclient.NewClient(tbclient.ToUint128(0), addresses, options...)
	if err != nil {
		return nil, err
	}
	r.mu.Lock()
	defer r.mu.Unlock()
	r.shared[text(line["shared"])] = client
	return nil, nil
}

func textOfAddress(given any) (string, error) {
	address, _ := given.(object)
	if path, isUnix := address["unix"].(string); isUnix {
		return path, nil
	}
	return fmt.Sprintf("%v:%v", address["host"], address["port"]), nil
}

// begin begins a call, which waits for `end`.
func (r *runner) begin(line object) (any, error) {
	client, err := r.client(line)
	if err != nil {
		return nil, err
	}
	ctx, cancel := context.WithCancel(context.Background())
	call := &begunCall{cancel: cancel, answer: make(chan object, 1)}
	started := make(chan struct{})
	go func() {
		close(started)
		call.answer <- answerOf(func() (any, error) { return askWithin(ctx, client, line) })
	}()
	<-started
	r.mu.Lock()
	defer r.mu.Unlock()
	r.begun[text(line["call"])] = call
	return nil, nil
}

func (r *runner) call(line object) (*begunCall, error) {
	return named(r, r.begun, line, "call")
}

// endedCall is the answer of a call that was begun.
type endedCall object

func (e endedCall) Error() string { return fmt.Sprint(object(e)) }

func (r *runner) end(line object) (any, error) {
	call, err := r.call(line)
	if err != nil {
		return nil, err
	}
	return nil, endedCall(<-call.answer)
}

func (r *runner) leave(line object) (any, error) {
	call, err := r.call(line)
	if err == nil {
		call.cancel()
	}
	return nil, err
}
