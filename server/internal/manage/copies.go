package manage

import (
	"bufio"
	"bytes"
	"context"
	"crypto/rand"
	"encoding/hex"
	"encoding/json"
	"errors"
	"fmt"
	"sort"

	"telovamish.org/server/internal/agreed"
	"telovamish.org/server/internal/entries"
	"telovamish.org/server/internal/faults"
	"telovamish.org/server/internal/logcopy"
	"telovamish.org/server/internal/report"
)

const appendTries = 5 // of an entry of a restore whose outcome is unknown

// script writes the script that a copy has: the pairs of all its entries.
func script(g *given, out *output) error {
	buffered := bufio.NewWriterSize(out, 1<<18)
	err := logcopy.AllRecords(g.Copy, func(it logcopy.Record) error {
		pairs, err := pairsOf(it)
		if err != nil {
			return err
		}
		buffered.Write(pairs)
		if out.isOver() {
			return logcopy.ErrEnough
		}
		return nil
	})
	buffered.Flush()
	if out.err != nil {
		return out.err
	}
	return err
}

func pairsOf(it logcopy.Record) ([]byte, error) {
	entry, err := entries.ParseTrusted(it.Data)
	if err != nil {
		return nil, faults.New(faults.Damaged, "the entry at %d: %v", it.Position, err)
	}
	return entry.Pairs, nil
}

// copyFrom makes a copy from a peer's.
func copyFrom(g *given, out *output) error {
	mark, err := logcopy.From(g.Source, g.Copy)
	if err == nil {
		out.tell("position %d place %d", mark.Position, mark.Place)
	}
	return err
}

// restore makes a new log with the entries of a copy. No replica takes a log in which this has not come to
// its end: its head has other rules until then.
func restore(ctx context.Context, g *given, log agreed.Log, out *output) error {
	before, after, err := heads(g.Copy)
	if err != nil {
		return err
	}
	if err := isNew(ctx, g, log, before); err != nil {
		return err
	}
	entry := entries.Entry{}
	if _, err := rand.Read(entry.Writer[:]); err != nil {
		return err
	}
	err = logcopy.AllRecords(g.Copy, func(it logcopy.Record) error {
		pairs, err := pairsOf(it)
		if err != nil {
			return err
		}
		entry.Number++
		entry.Log.Position, entry.Pairs = entry.Number-1, pairs
		if err := appendOnce(ctx, log, &entry); err != nil {
			return err
		}
		entry.Log.Hash = entry.Log.Hash.Next(pairs)
		return nil
	})
	if err != nil {
		return err
	}
	found, err := log.ChangeHead(ctx, before, after)
	if err != nil {
		return err
	}
	if !bytes.Equal(found, after) {
		return report.End(1, "the head of %s was changed meanwhile", g.URL)
	}
	out.tell("position %d log %s", entry.Number, entry.Log.Hash)
	return nil
}

// heads are those of a restored log, until the restore has ended and after it.
func heads(folder string) (before, after []byte, err error) {
	data, err := logcopy.HeadIn(folder)
	if err != nil {
		return nil, nil, err
	}
	head := map[string]any{}
	decoder := json.NewDecoder(bytes.NewReader(data))
	decoder.UseNumber()
	if decoder.Decode(&head) != nil || head == nil {
		head = map[string]any{}
	}
	id := make([]byte, 16)
	if _, err := rand.Read(id); err != nil {
		return nil, nil, err
	}
	head["id"] = hex.EncodeToString(id)
	after = dumped(head)
	head["restored"] = false
	return dumped(head), after, nil
}

// dumped is a head's JSON with sorted names, as replicas write it.
func dumped(head map[string]any) []byte {
	names := []string{}
	for name := range head {
		names = append(names, name)
	}
	sort.Strings(names)
	to := []byte("{")
	for at, name := range names {
		if at > 0 {
			to = append(to, ", "...)
		}
		key, _ := json.Marshal(name) // both were read from JSON
		value, _ := json.Marshal(head[name])
		to = append(to, fmt.Sprintf("%s: %s", key, value)...)
	}
	return append(to, '}')
}

// isNew makes the head of a new log. It is a fault if there is a log.
func isNew(ctx context.Context, g *given, log agreed.Log, head []byte) error {
	found, err := log.Head(ctx, head)
	if err != nil {
		return err
	}
	listed, err := log.Reports(ctx)
	if err != nil {
		return err
	}
	if !bytes.Equal(found, head) || len(listed) > 0 {
		return report.End(1, "there is a log at %s: give the new one another name", g.URL)
	}
	return nil
}

// appendOnce appends an entry, by its name again if the outcome is unknown.
func appendOnce(ctx context.Context, log agreed.Log, entry *entries.Entry) error {
	data := entry.Append(nil)
	for tried := 1; ; tried++ {
		_, err := log.Append(ctx, entry.Writer[:], entry.Number, data)
		if !errors.Is(err, agreed.ErrNoLog) || tried == appendTries || ctx.Err() != nil {
			return err
		}
	}
}
