package metrics

import (
	"io"
	"net"
	"net/http"
	"strings"
	"testing"
	"time"

	"telovamish.org/server/internal/backend"
	"telovamish.org/server/internal/counts"
	"telovamish.org/server/internal/frames"
	"telovamish.org/server/internal/status"
)

type fake struct{ backend.Backend }

func (fake) IsServing() bool        { return true }
func (fake) Commits() (int64, bool) { return 2, true }
func (fake) Lag() time.Duration     { return 0 }

func numbers() *status.Numbers {
	it := &status.Numbers{Counts: counts.New(), Of: fake{}}
	it.Counts.Begin()
	reply := make(frames.Header, frames.HeaderSize)
	reply[28] = 2
	it.Counts.Answered(reply, time.Millisecond)
	it.Counts.Answered(reply, 2*time.Millisecond)
	it.Counts.Closed("Slow")
	return it
}

func TestAPage(t *testing.T) {
	got := Page(numbers())
	for _, line := range []string{
		"# HELP tb_requests_total Requests that were answered",
		"# TYPE tb_requests_total counter",
		`tb_requests_total{operation="register",status="Reply"} 2.0`,
		"# TYPE tb_request_seconds histogram",
		`tb_request_seconds_bucket{le="0.0005"} 0.0`,
		`tb_request_seconds_bucket{le="0.001"} 1.0`,
		`tb_request_seconds_bucket{le="5.0"} 2.0`,
		`tb_request_seconds_bucket{le="+Inf"} 2.0`,
		"tb_request_seconds_count 2.0",
		"tb_request_seconds_sum 0.003",
		"tb_ready 1.0",
		`tb_connections_closed_total{why="Slow"} 1.0`,
		"tb_evictions_total 0.0",
		"tb_commits_total 2.0",
		"tb_syncs_total 4.0",
		"tb_clock_lag_seconds 0.0",
	} {
		if !strings.Contains("\n"+got, "\n"+line+"\n") {
			t.Errorf("%q is not in\n%s", line, got)
		}
	}
	if strings.Contains(got, "tb_ledger_bytes") {
		t.Error("there is no file")
	}
}

func serving(t *testing.T) string {
	t.Helper()
	place, err := net.Listen("tcp", "127.0.0.1:0")
	if err != nil {
		t.Fatal(err)
	}
	t.Cleanup(func() { place.Close() })
	go Serve(place, numbers())
	return place.Addr().String()
}

func TestThePageIsServed(t *testing.T) {
	page, err := http.Get("http://" + serving(t) + "/metrics")
	if err != nil {
		t.Fatal(err)
	}
	defer page.Body.Close()
	text, err := io.ReadAll(page.Body)
	if err != nil || !strings.Contains(string(text), "tb_ready 1.0\n") || page.Header.Get("Content-Type") != form {
		t.Errorf("%s, %v, %v", text, page.Header, err)
	}
}

// TestManyReaders has those beyond a few closed at once, and others when they are gone.
func TestManyReaders(t *testing.T) {
	place := serving(t)
	var held []net.Conn
	for i := 0; i < readers+5; i++ {
		it, err := net.Dial("tcp", place)
		if err != nil {
			t.Fatal(err)
		}
		held = append(held, it)
	}
	for _, it := range held[readers:] {
		it.SetReadDeadline(time.Now().Add(2 * time.Minute))
		if _, err := it.Read(make([]byte, 1)); err != io.EOF {
			t.Error(err)
		}
	}
	for _, it := range held {
		it.Close()
	}
	for i := 0; ; i++ {
		page, err := http.Get("http://" + place)
		if err == nil {
			page.Body.Close()
			return
		}
		if i > 5000 {
			t.Fatal(err)
		}
		time.Sleep(20 * time.Millisecond)
	}
}

// overLog is a fake over an agreed log.
type overLog struct{ fake }

func (overLog) LogNumbers() backend.LogNumbers {
	return backend.LogNumbers{Position: 40, Answered: 39, First: 12, Ahead: 1500 * time.Millisecond, CopyPosition: 38,
		CopyBytes: 4096, Rotten: map[string]int{"m2:2379": 3}}
}

func TestAPageOfAReplica(t *testing.T) {
	it := numbers()
	if strings.Contains(Page(it), "tb_log_") {
		t.Error("a listener has no log")
	}
	it.Of = overLog{}
	got := Page(it)
	for _, line := range []string{"tb_log_position 40.0", "tb_log_answered 39.0", "tb_log_first 12.0",
		"tb_log_ahead_seconds 1.5", "tb_copy_position 38.0", "tb_copy_bytes 4096.0",
		"# TYPE tb_rotten_entries_total counter", `tb_rotten_entries_total{node="m2:2379"} 3.0`} {
		if !strings.Contains("\n"+got, "\n"+line+"\n") {
			t.Errorf("%q is not in\n%s", line, got)
		}
	}
}
