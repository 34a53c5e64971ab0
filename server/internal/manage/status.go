package manage

import (
	"bytes"
	"context"
	"encoding/json"
	"fmt"
	"sort"
	"strconv"
	"strings"
	"time"

	"telovamish.org/server/internal/agreed"
	"telovamish.org/server/internal/faults"
	"telovamish.org/server/internal/report"
)

// replica is what a replica last reported of itself.
type replica struct {
	name                                     string
	position, place, answered, clock, moment uint64
	replies, writer, address, fault          string
	rotten                                   []string
}

// reports are those of all listed replicas, by their names.
func reports(ctx context.Context, log agreed.Log) ([]*replica, error) {
	found, err := log.Reports(ctx)
	if err != nil {
		return nil, err
	}
	replicas := []*replica{}
	for name, data := range found {
		replicas = append(replicas, parsed(name, data))
	}
	sort.Slice(replicas, func(i, j int) bool { return replicas[i].name < replicas[j].name })
	for _, it := range replicas {
		if it.address == "" && it.writer == "" && it.replies == "" {
			return nil, report.End(1, "the report of %s is none: forget it", it.name)
		}
	}
	return replicas, nil
}

// parsed is what a report says. It has no texts if it is none.
func parsed(name string, data []byte) *replica {
	it, said := &replica{name: name}, map[string]any(nil)
	decoder := json.NewDecoder(bytes.NewReader(data))
	decoder.UseNumber()
	if decoder.Decode(&said) != nil {
		return it
	}
	is := true
	for field, to := range map[string]*uint64{"position": &it.position, "place": &it.place,
		"answered": &it.answered, "clock": &it.clock, "moment": &it.moment} {
		number, _ := said[field].(json.Number)
		value, err := strconv.ParseUint(number.String(), 10, 64)
		*to, is = value, is && err == nil
	}
	for field, to := range map[string]*string{"replies": &it.replies, "writer": &it.writer, "address": &it.address} {
		text, ok := said[field].(string)
		*to, is = text, is && ok
	}
	if fault, has := said["fault"]; has {
		text, ok := fault.(string)
		it.fault, is = text, is && ok
	}
	if rotten, has := said["rotten"]; has {
		list, ok := rotten.([]any)
		is = is && ok
		for _, node := range list {
			text, ok := node.(string)
			it.rotten, is = append(it.rotten, text), is && ok
		}
	}
	if !is {
		return &replica{name: name}
	}
	return it
}

// status prints a line for the log and one for each replica. It returns a fault that they have.
func status(ctx context.Context, g *given, log agreed.Log, out *output) error {
	position, place, err := log.Trimmed(ctx)
	if err != nil {
		return err
	}
	replicas, err := reports(ctx, log)
	if err != nil {
		return err
	}
	full, err := log.Full(ctx)
	if err != nil {
		return err
	}
	out.tell("log %s trimmed to position %d place %d", g.URL, position, place)
	now, last := time.Now().UnixNano(), uint64(0)
	for _, it := range replicas {
		if it.moment > last {
			last = it.moment
		}
	}
	if last > uint64(now) {
		out.tell("the log is %.0f s ahead of this computer's clock", float64(last-uint64(now))/1e9)
	}
	for _, it := range replicas {
		out.tell("%s", it.line(now))
	}
	if err := compare(replicas); err != nil {
		return err
	}
	if full != "" {
		return faults.New(faults.LogFull, "%s", full)
	}
	return nil
}

// line is what is printed of a replica.
func (r *replica) line(now int64) string {
	hash := r.replies
	if len(hash) > 16 {
		hash = hash[:16]
	}
	words := []string{
		fmt.Sprintf("replica %s at %s", r.name, r.address),
		fmt.Sprintf("position %d", r.position),
		fmt.Sprintf("answered %d hash %s", r.answered, hash),
		"writer " + r.writer,
		fmt.Sprintf("%.0f s ago", (float64(now)-float64(r.clock))/1e9),
	}
	for _, node := range r.rotten {
		words = append(words, node+" is rotten")
	}
	if r.fault != "" {
		words = append(words, r.fault)
	}
	return strings.Join(words, " ")
}

// compare is a fault if two replicas have other replies at one position.
func compare(replicas []*replica) error {
	seen := map[uint64]*replica{}
	for _, it := range replicas {
		other, ok := seen[it.answered]
		if !ok {
			seen[it.answered], other = it, it
		}
		if other.replies != it.replies {
			return faults.New(faults.Diverged, "%s and %s have other replies up to position %d",
				other.name, it.name, it.answered)
		}
		if strings.HasPrefix(it.fault, "Diverged") {
			return faults.New(faults.Diverged, "%s says: %s", it.name, it.fault)
		}
	}
	return nil
}

// trim removes the entries that all listed replicas have on their disks.
func trim(ctx context.Context, g *given, log agreed.Log, out *output) error {
	if err := forget(ctx, g.Forget, log, out); err != nil {
		return err
	}
	replicas, err := reports(ctx, log)
	if err != nil {
		return err
	}
	if len(replicas) == 0 {
		return report.End(1, "no replica is listed, and nothing is trimmed")
	}
	least := leastOf(replicas)
	position, place, err := log.Trimmed(ctx)
	if err != nil {
		return err
	}
	to := agreed.Place(least.place)
	if least.position < position || least.position == position && to < place {
		return report.End(1, "nothing is trimmed: `trimmed` has position %d at place %d, and %s %d at %d: "+
			"forget it, or find who wrote that", position, place, least.name, least.position, least.place)
	}
	if least.position == position && to == place {
		isDone, err := isTrimmed(ctx, log, to)
		if err != nil {
			return err
		}
		if isDone {
			out.tell("nothing to trim: the log is trimmed to position %d", position)
			return nil
		}
	}
	lines, err := log.Trim(ctx, least.position, to)
	for _, it := range lines {
		out.tell("%s", it)
	}
	return err
}

// leastOf is the replica that has least on its disk.
func leastOf(replicas []*replica) *replica {
	least := replicas[0]
	for _, it := range replicas {
		if it.position < least.position {
			least = it
		}
	}
	return least
}

// isTrimmed reports whether no entry up to a place is left, and the engine takes more.
func isTrimmed(ctx context.Context, log agreed.Log, place agreed.Place) (bool, error) {
	isRemoved, err := log.HasRemoved(ctx, place)
	if err != nil || !isRemoved {
		return false, err
	}
	full, err := log.Full(ctx)
	return full == "", err
}

// forget takes replicas off the list.
func forget(ctx context.Context, names []string, log agreed.Log, out *output) error {
	if len(names) == 0 {
		return nil
	}
	listed, err := log.Reports(ctx)
	if err != nil {
		return err
	}
	for _, name := range names {
		if _, ok := listed[name]; !ok {
			out.tell("no replica is listed by the name %s", name)
			continue
		}
		if err := log.Forget(ctx, name); err != nil {
			return err
		}
	}
	return nil
}
