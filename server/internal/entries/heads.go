package entries

import (
	"bytes"
	"encoding/json"
	"errors"
	"fmt"
	"reflect"
	"strconv"
)

// What a head says of the log.
const (
	Format = 3 // of entries
	Rules  = 1 // grows if a server replies to a log otherwise than before
)

// follow is the subcommand of a server that follows a log.
const follow = "follow"

// ErrCommand is why no head is made of a command.
var ErrCommand = errors.New("COMMAND does not end in follow CLIENTS_MAX [PROFILE]")

// Head is the log's head: what all replicas of one log have in common.
type Head struct {
	ClientsMax, Profile uint64
	ID                  string // of the log; empty if it is not known yet
	IsUnfinished        bool   // a restore of the log has not ended
}

// HeadOf is what replicas of one log have in common, of a server's command, which ends in `follow
// CLIENTS_MAX [PROFILE]`.
func HeadOf(command []string) (Head, error) {
	for _, count := range []int{2, 1} {
		at := len(command) - count - 1
		if at < 1 || command[at] != follow {
			continue
		}
		head, err := Head{Profile: 1}, error(nil)
		for i, number := range []*uint64{&head.ClientsMax, &head.Profile}[:count] {
			if *number, err = strconv.ParseUint(command[at+1+i], 10, 63); err != nil {
				break
			}
		}
		if err == nil {
			return head, nil
		}
	}
	return Head{}, ErrCommand
}

// Bytes are those of the head, as JSON with sorted names.
func (h Head) Bytes() []byte { return h.text(true) }

// text is the head's JSON, as Python writes it, with or without the log's id.
func (h Head) text(hasID bool) []byte {
	var to bytes.Buffer
	fmt.Fprintf(&to, `{"clients_max": %d, "format": %d, `, h.ClientsMax, Format)
	if hasID {
		id, _ := json.Marshal(h.ID) // a text is always JSON
		fmt.Fprintf(&to, `"id": %s, `, id)
	}
	fmt.Fprintf(&to, `"profile": %d, `, h.Profile)
	if h.IsUnfinished {
		to.WriteString(`"restored": false, `)
	}
	fmt.Fprintf(&to, `"rules": %d}`, Rules)
	return to.Bytes()
}

// Wanted is the head's JSON without the id, as a line shows it.
func (h Head) Wanted() string { return string(h.text(false)) }

// HasSameRules reports whether a log with the head of these bytes is one for this head: it differs in
// nothing but its id.
func (h Head) HasSameRules(data []byte) bool {
	found, wanted := readHead(data), readHead(h.text(false))
	delete(found, "id")
	return found != nil && reflect.DeepEqual(found, wanted)
}

// IsSameHead reports whether two heads are of the same log.
func IsSameHead(a, b []byte) bool {
	return reflect.DeepEqual(readHead(a), readHead(b))
}

// readHead is what a head says; nil if it is not one.
func readHead(data []byte) map[string]any {
	var found map[string]any
	if json.Unmarshal(data, &found) != nil {
		return nil
	}
	return found
}
