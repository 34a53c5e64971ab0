package config

import (
	"bytes"
	"errors"
	"fmt"
	"sort"
	"strconv"

	"github.com/pelletier/go-toml/v2"

	"telovamish.org/server/internal/access"
	"telovamish.org/server/internal/report"
)

// fileOptions is what a file of --config may have: each option by its name, and the command. What a value is
// to be, its option says.
type fileOptions struct {
	Unix               any `toml:"unix"`
	TCP                any `toml:"tcp"`
	Connections        any `toml:"connections"`
	Certificate        any `toml:"certificate"`
	Key                any `toml:"key"`
	ClientCA           any `toml:"client-ca"`
	Insecure           any `toml:"insecure"`
	AllowUID           any `toml:"allow-uid"`
	Clients            any `toml:"clients"`
	ConnectionsPerPeer any `toml:"connections-per-peer"`
	SessionsPerRange   any `toml:"sessions-per-range"`
	RequestsPerSecond  any `toml:"requests-per-second"`
	Memory             any `toml:"memory"`
	Status             any `toml:"status"`
	Metrics            any `toml:"metrics"`
	Idle               any `toml:"idle"`
	Slow               any `toml:"slow"`
	LogJSON            any `toml:"log-json"`
	Ahead              any `toml:"ahead"`
	Command            any `toml:"command"`
}

// values are those of a file, by the names of their options.
func (f *fileOptions) values() map[string]any {
	return map[string]any{
		"unix": f.Unix, "tcp": f.TCP, "connections": f.Connections, "certificate": f.Certificate,
		"key": f.Key, "client-ca": f.ClientCA, "insecure": f.Insecure, "allow-uid": f.AllowUID,
		"clients": f.Clients, "connections-per-peer": f.ConnectionsPerPeer,
		"sessions-per-range": f.SessionsPerRange, "requests-per-second": f.RequestsPerSecond,
		"memory": f.Memory, "status": f.Status, "metrics": f.Metrics, "idle": f.Idle, "slow": f.Slow,
		"log-json": f.LogJSON, "ahead": f.Ahead,
	}
}

// readFile takes the options of the file that were not given as arguments.
func (c *Config) readFile(given map[string]bool) error {
	text, err := access.ReadFile(c.File)
	if err != nil {
		return err
	}
	return c.takeFile(text, given)
}

func (c *Config) takeFile(text []byte, given map[string]bool) error {
	var found fileOptions
	decoder := toml.NewDecoder(bytes.NewReader(text))
	decoder.DisallowUnknownFields()
	if err := decoder.Decode(&found); err != nil {
		return report.End(1, "%s%s", c.File, faultOf(err))
	}
	values := found.values()
	names := make([]string, 0, len(values))
	for name := range values {
		names = append(names, name)
	}
	sort.Strings(names)
	for _, name := range names {
		if values[name] == nil || given[name] {
			continue
		}
		if err := c.takeValue(optionOf(options, name), values[name]); err != nil {
			return report.End(1, "%s: %s: %v", c.File, name, err)
		}
	}
	if len(c.Command) > 0 || found.Command == nil {
		return nil
	}
	if err := c.takeCommand(found.Command); err != nil {
		return report.End(1, "%s: command: %v", c.File, err)
	}
	return nil
}

// takeCommand sets the command to a list of words, some of which may be numbers.
func (c *Config) takeCommand(value any) error {
	list, ok := value.([]any)
	if !ok {
		return fmt.Errorf("it takes a list, as [\"tbd\", \"run\", \"ledger.tbk\", \"64\"], not %s", shown(value))
	}
	for _, one := range list {
		word, isBool, ok := textOf(one)
		if isBool || !ok {
			return fmt.Errorf("each part of it is a word, not %s", shown(one))
		}
		c.Command = append(c.Command, word)
	}
	return nil
}

// takeValue sets an option to a value of the file: one that may be repeated has a list.
func (c *Config) takeValue(it *option, value any) error {
	if list, ok := value.([]any); ok && it.isMany {
		for _, one := range list {
			if err := c.takeValue(it, one); err != nil {
				return err
			}
		}
		return nil
	}
	text, isBool, ok := textOf(value)
	if !ok || isBool != it.isFlag() {
		return fmt.Errorf("it takes %s, not %s", kindOf(it), shown(value))
	}
	return it.set(c, text)
}

func kindOf(it *option) string {
	if it.isFlag() {
		return "true or false"
	}
	return it.value
}

// shown is how a line names a value.
func shown(value any) string {
	text, _, ok := textOf(value)
	switch value.(type) {
	case string:
		return report.Quoted(short(text, 60))
	case []any:
		return "a list"
	case map[string]any:
		return "a table"
	}
	if ok {
		return text
	}
	return "a time"
}

// textOf is a value as an argument would have it, if it is no list, table or time.
func textOf(value any) (text string, isBool, ok bool) {
	switch it := value.(type) {
	case string:
		return it, false, true
	case int64:
		return strconv.FormatInt(it, 10), false, true
	case float64:
		return strconv.FormatFloat(it, 'f', -1, 64), false, true
	case bool:
		return strconv.FormatBool(it), true, true
	}
	return "", false, false
}

// faultOf is what is wrong with the text of a file, and in which line.
func faultOf(err error) string {
	var missing *toml.StrictMissingError
	if errors.As(err, &missing) && len(missing.Errors) > 0 {
		row, _ := missing.Errors[0].Position()
		return fmt.Sprintf(", line %d: no option is called %s", row, nameOf(missing.Errors[0].Key()))
	}
	var wrong *toml.DecodeError
	if errors.As(err, &wrong) {
		row, _ := wrong.Position()
		return fmt.Sprintf(", line %d: %s", row, wrong.Error())
	}
	return ": " + err.Error()
}

func nameOf(key toml.Key) string {
	name := ""
	for at, part := range key {
		if at > 0 {
			name += "."
		}
		name += part
	}
	return report.Quoted(short(name, 60))
}
