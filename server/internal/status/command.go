package status

import (
	"encoding/json"
	"fmt"
	"io"
	"net"
	"os"
	"sort"
	"strings"
	"time"

	"telovamish.org/server/internal/report"
)

// Place is where the units of packaging have the status socket.
const Place = "/run/telovamish/status.sock"

const (
	lineMax  = 1 << 20
	askUntil = 10 * time.Second
	usage    = "usage: tb-listen status [--json] [PATH]\n"
)

// Exit statuses of the command.
const (
	Ready    = 0
	Starting = 1
	Unknown  = 2
)

// Line is what a host reports.
type Line struct {
	State       string                      `json:"state"`
	Seconds     float64                     `json:"seconds"`
	Connections int64                       `json:"connections"`
	Taken       int64                       `json:"connections_taken"`
	Closed      map[string]int64            `json:"connections_closed_by_fault"`
	Requests    map[string]map[string]int64 `json:"requests"`
	Evictions   int64                       `json:"evictions"`
	Commits     *int64                      `json:"commits"`
	Syncs       *int64                      `json:"syncs"`
	FileBytes   *int64                      `json:"file_bytes"`
	ClockLag    float64                     `json:"clock_lag_seconds"`

	// of a replica
	LogPosition  *int64           `json:"log_position"`
	LogAnswered  int64            `json:"log_answered"`
	LogFirst     int64            `json:"log_first"`
	LogAhead     float64          `json:"log_ahead_seconds"`
	CopyPosition int64            `json:"copy_position"`
	CopyBytes    int64            `json:"copy_bytes"`
	Rotten       map[string]int64 `json:"rotten_entries"`
}

// Command is `tb-listen status`: it prints the state of a host, and returns the exit status.
func Command(arguments []string, out, errors io.Writer) int {
	path, isJSON, fault := parse(arguments)
	if fault == "help" {
		fmt.Fprint(out, usage)
		return Ready
	}
	if fault != "" {
		fmt.Fprintf(errors, "%stb_listen: error: %s\n", usage, fault)
		return Unknown
	}
	text, err := read(path)
	if err != nil {
		fmt.Fprintf(errors, "tb_listen: %s: %s\n", path, report.Why(err))
		return Unknown
	}
	line, err := Parse(text)
	if err != nil {
		fmt.Fprintf(errors, "tb_listen: %s: what came is no status: %v\n", path, err)
		return Unknown
	}
	shown := line.String()
	if isJSON {
		shown = strings.TrimSpace(string(text)) + "\n"
	}
	if _, err := io.WriteString(out, shown); err != nil {
		fmt.Fprintf(errors, "tb_listen: standard output: %s\n", report.Why(err))
		return Unknown
	}
	if line.State == "ready" {
		return Ready
	}
	return Starting
}

// parse is what arguments say, or what is wrong with them.
func parse(arguments []string) (path string, isJSON bool, fault string) {
	for _, word := range arguments {
		switch {
		case word == "--json":
			isJSON = true
		case word == "--help" || word == "-h":
			return "", false, "help"
		case strings.HasPrefix(word, "-"):
			return "", false, "unrecognized arguments: " + word
		case word == "":
			return "", false, "an empty word is no path"
		case path != "":
			return "", false, "give one PATH"
		default:
			path = word
		}
	}
	if path == "" {
		path = Place
	}
	return path, isJSON, ""
}

// read is the line that a host writes on its status socket.
func read(path string) ([]byte, error) {
	name := path
	if strings.HasPrefix(name, "@") {
		name = "./" + name
	}
	it, err := net.DialTimeout("unix", name, askUntil)
	if err != nil {
		return nil, err
	}
	defer it.Close()
	it.SetDeadline(time.Now().Add(askUntil))
	return io.ReadAll(io.LimitReader(it, lineMax))
}

// Parse reads the line of a host.
func Parse(text []byte) (*Line, error) {
	line := &Line{}
	if err := json.Unmarshal(text, line); err != nil {
		return nil, err
	}
	if line.State != "ready" && line.State != "starting" {
		return nil, fmt.Errorf("its state is %s", report.Quoted(line.State))
	}
	return line, nil
}

// String is the line for people.
func (l *Line) String() string {
	var page strings.Builder
	row := func(name, value string) { fmt.Fprintf(&page, "%-12s %s\n", name, value) }
	row("state", l.State)
	row("running", (time.Duration(l.Seconds) * time.Second).String())
	row("connections", fmt.Sprintf("%d now, %d taken%s", l.Connections, l.Taken, closedBy(l.Closed)))
	for _, operation := range sorted(l.Requests) {
		var parts []string
		for _, status := range sorted(l.Requests[operation]) {
			parts = append(parts, fmt.Sprintf("%d %s", l.Requests[operation][status], status))
		}
		row("requests", operation+": "+strings.Join(parts, ", "))
	}
	row("evictions", fmt.Sprint(l.Evictions))
	row("commits", known(l.Commits))
	row("syncs", known(l.Syncs))
	row("file", known(l.FileBytes)+" bytes")
	row("clock", fmt.Sprintf("moments are %g s behind it", l.ClockLag))
	if l.LogPosition != nil {
		row("log", fmt.Sprintf("position %d, answered up to %d, begins at %d, %g s ahead of the clock",
			*l.LogPosition, l.LogAnswered, l.LogFirst, l.LogAhead))
		row("copy", fmt.Sprintf("position %d, %d bytes", l.CopyPosition, l.CopyBytes))
		for _, node := range sorted(l.Rotten) {
			row("rotten", fmt.Sprintf("%s: %d entries", node, l.Rotten[node]))
		}
	}
	return page.String()
}

func closedBy(faults map[string]int64) string {
	text := ""
	for _, name := range sorted(faults) {
		text += fmt.Sprintf(", %d closed by %s", faults[name], name)
	}
	return text
}

func known(number *int64) string {
	if number == nil {
		return "not known"
	}
	return fmt.Sprint(*number)
}

func sorted[T any](its map[string]T) []string {
	names := make([]string, 0, len(its))
	for name := range its {
		names = append(names, name)
	}
	sort.Strings(names)
	return names
}

// Main is the command over the standard files.
func Main(arguments []string) int { return Command(arguments, os.Stdout, os.Stderr) }
