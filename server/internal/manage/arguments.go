package manage

import (
	"fmt"
	"strconv"
	"strings"
	"unicode"
	"unicode/utf8"

	"telovamish.org/server/internal/agreed"
	"telovamish.org/server/internal/config"
	"telovamish.org/server/internal/report"
)

const shownMax = 60 // characters of a wrong value that a line shows

// given is what a subcommand's arguments say.
type given struct {
	URL     string
	Access  agreed.Access
	Copy    string
	Source  string
	Forget  []string
	At      uint64
	Command []string
}

// option is an option of a subcommand.
type option struct {
	name, value, help string
	isMany            bool
	isRequired        bool
	set               func(g *given, text string) error
}

// subcommand is how a subcommand is used.
type subcommand struct {
	usage      string // after the program's name
	options    []option
	hasSource  bool // it has a FOLDER
	hasCommand bool // it has a COMMAND
}

// logOptions are those of LogOptions, for what a subcommand is given.
var logOptions = func() []option {
	var its []option
	for at, it := range LogOptions(new(string), &agreed.Access{}) {
		at := at
		its = append(its, option{name: it.Name, value: it.Value, help: it.Help, isRequired: it.IsRequired,
			set: func(g *given, text string) error { return LogOptions(&g.URL, &g.Access)[at].Set(text) }})
	}
	return its
}()

// LogOptions are the options by which a log is found and spoken to, which set a URL and an Access.
func LogOptions(url *string, access *agreed.Access) []config.Option {
	file := func(to *string) func(string) error {
		return func(text string) error {
			if *to = text; text == "" {
				return fmt.Errorf("an empty word is no path")
			}
			return nil
		}
	}
	return []config.Option{
		{Name: "log", Value: "LOG", Help: "the agreed log", IsRequired: true, Set: func(text string) error {
			_, err := agreed.Parse(text)
			*url = text
			return err
		}},
		{Name: "log-ca", Value: "FILE", Help: "the certificates that the engine's is tested by: TLS is spoken",
			Set: file(&access.Authority)},
		{Name: "log-certificate", Value: "FILE", Help: "this replica's certificate", Set: file(&access.Certificate)},
		{Name: "log-key", Value: "FILE", Help: "the key of its certificate", Set: file(&access.Key)},
		{Name: "log-password-file", Value: "FILE", Help: "its first line is the password of --log-user",
			Set: file(&access.PasswordFile)},
		{Name: "log-user", Value: "NAME", Help: "the engine's user", Set: func(text string) error {
			if access.User = text; text == "" {
				return fmt.Errorf("it is empty")
			}
			return nil
		}},
		{Name: "standbys", Value: "N", Help: "PostgreSQL: standbys that have to have flushed what is read (1; " +
			"0 is one machine)", Set: func(text string) error {
			number, err := whole(text, 65535)
			access.Standbys = int(number)
			return err
		}},
	}
}

var forgetOption = option{name: "forget", value: "NAME", help: "take a replica off the list that is there no more",
	isMany: true, set: func(g *given, text string) error {
		var name string
		err := SetName(&name)(text)
		g.Forget = append(g.Forget, name)
		return err
	}}

var atOption = option{name: "at", value: "POSITION", help: "up to this position (the last)",
	set: func(g *given, text string) (err error) {
		g.At, err = whole(text, 1<<63-1)
		return err
	}}

func copyOption(help string) option {
	return option{name: "copy", value: "FOLDER", help: help, isRequired: true,
		set: path(func(g *given) *string { return &g.Copy })}
}

var subcommands = map[string]*subcommand{
	"status": {usage: "status --log LOG [OPTIONS]", options: logOptions},
	"trim":   {usage: "trim --log LOG [--forget NAME ..]", options: append(logOptions[:len(logOptions):len(logOptions)], forgetOption)},
	"restore": {usage: "restore --log LOG --copy FOLDER", options: append(logOptions[:len(logOptions):len(logOptions)],
		copyOption("the copy whose history it gets"))},
	"copy-from": {usage: "copy-from FOLDER --copy FOLDER", options: []option{copyOption("the new copy")}, hasSource: true},
	"script":    {usage: "script --copy FOLDER", options: []option{copyOption("the copy")}},
	"hashes": {usage: "hashes --copy FOLDER [--at POSITION] -- COMMAND [WORD ..]",
		options: []option{copyOption("the copy"), atOption}, hasCommand: true},
}

func path(of func(*given) *string) func(*given, string) error {
	return func(g *given, text string) error {
		if text == "" {
			return fmt.Errorf("an empty word is no path")
		}
		*of(g) = text
		return nil
	}
}

func whole(text string, most uint64) (uint64, error) {
	if config.IsNumber(text) && len(text) < 20 {
		if number, err := strconv.ParseUint(text, 10, 64); err == nil && number <= most {
			return number, nil
		}
	}
	shown := []rune(text)
	if len(shown) > shownMax {
		shown = shown[:shownMax]
	}
	return 0, fmt.Errorf("%s is no number from 0 to %d", report.Quoted(string(shown)), most)
}

// FaultOf is what is wrong with options of a log that do not go together, or "": a file of TLS would be
// ignored, and etcd be told the password without TLS.
func FaultOf(url string, access *agreed.Access) string {
	hasOne := access.Certificate != "" || access.Key != ""
	hasAll := access.Certificate != "" && access.Key != "" && access.Authority != ""
	if strings.HasPrefix(url, "etcd:") && hasOne && !hasAll {
		return "--log-certificate and --log-key need each other, and --log-ca"
	}
	return ""
}

// SetName sets the name of a replica.
func SetName(to *string) func(string) error {
	return func(text string) error {
		if *to = text; !isName(text) {
			return fmt.Errorf("%s is no name", report.Quoted(text))
		}
		return nil
	}
}

func isName(text string) bool {
	for _, it := range text {
		if !unicode.IsPrint(it) {
			return false
		}
	}
	return text != "" && utf8.ValidString(text)
}

// wrong is why arguments are wrong, with how the subcommand is used.
func (s *subcommand) wrong(format string, values ...any) error {
	return &config.Usage{Text: fmt.Sprintf("usage: tb-replica %s\ntb-replica: error: %s\n", s.usage,
		fmt.Sprintf(format, values...))}
}

// parse is what arguments say. It returns a config.Page if they ask for one, and a config.Usage if they
// are wrong.
func (s *subcommand) parse(arguments []string) (*given, error) {
	g := &given{Access: agreed.Access{Standbys: 1}}
	found, others := map[string]bool{}, []string(nil)
	for len(arguments) > 0 {
		word := arguments[0]
		arguments = arguments[1:]
		switch {
		case word == "--":
			g.Command, arguments = arguments, nil
		case word == "--version":
			return nil, &config.Page{Text: "tb-replica " + config.Version + "\n"}
		case word == "-h", word == "--help":
			return nil, &config.Page{Text: s.help()}
		case !strings.HasPrefix(word, "-") || word == "-":
			others = append(others, word)
		default:
			name, value, hasValue := strings.Cut(strings.TrimPrefix(word, "--"), "=")
			it := s.option(name)
			if it == nil || !strings.HasPrefix(word, "--") {
				return nil, s.wrong("unrecognized arguments: %s", word)
			}
			if !hasValue && len(arguments) > 0 && (!strings.HasPrefix(arguments[0], "-") || arguments[0] == "-") {
				value, hasValue, arguments = arguments[0], true, arguments[1:]
			}
			if err := g.take(it, value, hasValue, found); err != nil {
				return nil, s.wrong("argument --%s: %v", it.name, err)
			}
		}
	}
	return g, s.test(g, found, others)
}

func (s *subcommand) option(name string) *option {
	for at := range s.options {
		if s.options[at].name == name {
			return &s.options[at]
		}
	}
	return nil
}

func (g *given) take(it *option, value string, hasValue bool, found map[string]bool) error {
	switch {
	case !hasValue:
		return fmt.Errorf("expected one argument")
	case found[it.name] && !it.isMany:
		return fmt.Errorf("give it once")
	}
	found[it.name] = true
	return it.set(g, value)
}

// test takes the words that are no options, and returns what is wrong with all of them together.
func (s *subcommand) test(g *given, found map[string]bool, others []string) error {
	if s.hasCommand && g.Command == nil {
		g.Command, others = others, nil
	}
	if s.hasSource && len(others) > 0 {
		g.Source, others = others[0], others[1:]
	}
	missing := []string{}
	for _, it := range s.options {
		if it.isRequired && !found[it.name] {
			missing = append(missing, "--"+it.name)
		}
	}
	if s.hasSource && g.Source == "" {
		missing = append([]string{"FOLDER"}, missing...)
	}
	if s.hasCommand && len(g.Command) == 0 {
		missing = append(missing, "COMMAND")
	}
	if !s.hasCommand {
		others = append(others, g.Command...)
	}
	switch {
	case len(missing) > 0:
		return s.wrong("the following arguments are required: %s", strings.Join(missing, ", "))
	case len(others) > 0:
		return s.wrong("unrecognized arguments: %s", strings.Join(others, " "))
	case s.hasCommand && g.Command[0] == "":
		return s.wrong("an empty word is no COMMAND")
	}
	if fault := FaultOf(g.URL, &g.Access); fault != "" {
		return s.wrong("%s", fault)
	}
	return nil
}

// help is how a subcommand is used.
func (s *subcommand) help() string {
	page := "usage: tb-replica " + s.usage + "\n\noptions:\n"
	for _, it := range s.options {
		page += fmt.Sprintf("  --%s %s\n                        %s\n", it.name, it.value, it.help)
	}
	return page
}
