package tbclient

import (
	"context"
	"errors"
	"fmt"
	"testing"
)

func TestKindsOfErrors(t *testing.T) {
	kinds := map[string]error{
		"NotSent": ErrNotSent, "Invalid": ErrInvalid, "InDoubt": ErrInDoubt, "NothingInDoubt": ErrNothingInDoubt,
		"Closed": ErrClosed, "CannotConnect": ErrCannotConnect, "Cancelled": ErrCancelled, "ReplyLost": ErrReplyLost,
		"Busy": ErrBusy, "BadReply": ErrBadReply, "Refused": ErrRefused, "Evicted": ErrEvicted,
		"EventsFailed": ErrEventsFailed, "context.Canceled": context.Canceled,
	}
	for _, row := range []struct {
		err error
		are []string
	}{
		{invalid("number", "is %d", 0), []string{"Invalid", "NotSent"}},
		{ErrInDoubt, []string{"InDoubt", "NotSent"}},
		{ErrNothingInDoubt, []string{"NothingInDoubt", "NotSent"}},
		{ErrClosed, []string{"Closed", "NotSent"}},
		{fmt.Errorf("%w: why", ErrCannotConnect), []string{"CannotConnect", "NotSent"}},
		{&LostError{Err: ErrClosed}, []string{"ReplyLost"}},
		{&LostError{Told: "Slow", Err: ErrCannotConnect}, []string{"ReplyLost"}},
		{&LostError{Told: "Busy", Err: ErrClosed}, []string{"ReplyLost", "Busy"}},
		{badReply("%d", 1), []string{"BadReply"}},
		{&RefusedError{Status: StatusNoSession}, []string{"Refused", "Evicted"}},
		{&RefusedError{Status: StatusSessionTooLow}, []string{"Refused", "Evicted"}},
		{&RefusedError{Status: StatusCollision}, []string{"Refused"}},
		{&RefusedError{Status: StatusNotYet}, []string{"Refused"}},
		{&CancelledError{Err: context.Canceled}, []string{"Cancelled", "NotSent", "context.Canceled"}},
		{&CancelledError{Sent: true, Err: context.Canceled}, []string{"Cancelled", "context.Canceled"}},
		{&EventsFailedError{}, []string{"EventsFailed"}},
	} {
		wanted := map[string]bool{}
		for _, name := range row.are {
			wanted[name] = true
		}
		for name, kind := range kinds {
			if errors.Is(fmt.Errorf("a wrapped %w", row.err), kind) != wanted[name] {
				t.Errorf("%v: whether it is %s", row.err, name)
			}
		}
	}
}

func TestWordsOfErrors(t *testing.T) {
	events := make([]FailedEvent, 12)
	for at := range events {
		events[at] = FailedEvent{Index: uint32(at), Result: TransferExceedsCredits}
	}
	for _, row := range []struct {
		err  error
		says string
	}{
		{invalid("transfers", "must be at most %d", 8190), "transfers must be at most 8190"},
		{&LostError{Told: "Busy", Err: errors.New("it closed")}, "the server is busy: it closed"},
		{&RefusedError{Status: StatusOlder, Session: 3, Number: 4}, "request 4 of session 3 is refused: Older"},
		{&EventsFailedError{Events: events[:2]}, "event 0: exceeds_credits, event 1: exceeds_credits"},
		{&ProgramError{Fault: "Full", Status: 8}, "Full (status 8)"},
		{&ProgramError{Fault: "Locked", Status: 4, Owner: 12}, "Locked (status 4): process 12"},
		{&ProgramError{Status: 1}, ErrProgramEnded.Error() + " (status 1)"},
	} {
		if row.err.Error() != row.says {
			t.Errorf("it says %q, not %q", row.err, row.says)
		}
	}
	if many := (&EventsFailedError{Events: events}).Error(); many[len(many)-12:] != ", and 2 more" {
		t.Errorf("it says %q", many)
	}
}
