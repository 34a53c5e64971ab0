package config

import (
	"fmt"
	"strings"
)

// Kind is a program that has these options: the listener, or another one with options of its own.
type Kind struct {
	Name    string // by which it is started
	Said    string // by which its faults of arguments begin
	Usage   string // after its name
	About   string // what it is, for --help
	Without []string
	More    []Option // they come first
}

// Option is an option that only one kind has.
type Option struct {
	Name, Value, Help  string // without a value it is a flag
	IsMany, IsRequired bool
	Set                func(text string) error
}

// Listener is tb-listen.
var Listener = &Kind{Name: "tb-listen", Said: Program, Usage: "[OPTIONS] -- COMMAND [WORD ..]", About: aboutListener}

// arguments are those of a kind that are parsed.
type arguments struct {
	*Kind
	c       *Config
	options []option
	given   map[string]bool
}

// Page is a page that is printed in place of listening: the version, or how the program is used.
type Page struct{ Text string }

// Error is the page.
func (p *Page) Error() string { return p.Text }

// Usage is why arguments are wrong: a line on how the program is used, and one on what is wrong.
type Usage struct{ Text string }

// Error is both lines.
func (u *Usage) Error() string { return u.Text }

// Wrong is why arguments are wrong.
func (k *Kind) Wrong(format string, values ...any) error {
	return &Usage{fmt.Sprintf("usage: %s %s\n%s: error: %s\n", k.Name, k.Usage, k.Said, fmt.Sprintf(format, values...))}
}

// all are the options of a kind.
func (k *Kind) all() []option {
	var all []option
	for at := range k.More {
		it := &k.More[at]
		all = append(all, option{name: it.Name, value: it.Value, help: it.Help, isMany: it.IsMany,
			isRequired: it.IsRequired, set: func(_ *Config, text string) error { return it.Set(text) }})
	}
	for _, it := range options {
		if !isAmong(it.name, k.Without) {
			all = append(all, it)
		}
	}
	return all
}

func isAmong(word string, words []string) bool {
	for _, it := range words {
		if it == word {
			return true
		}
	}
	return false
}

// Parse is what arguments say, and the file of --config. It returns a Page if they ask for one, a Usage
// if they are wrong, and a report.Ended if the file is.
func (k *Kind) Parse(words []string) (*Config, error) {
	a := &arguments{Kind: k, c: defaults(), options: k.all(), given: map[string]bool{}}
	c := a.c
	err := a.parse(words)
	if err == nil && c.File != "" {
		err = c.readFile(a.given)
	}
	switch {
	case err != nil:
		return c, err
	case len(c.Command) == 0:
		return c, k.Wrong("the following arguments are required: COMMAND")
	case c.Command[0] == "":
		return c, k.Wrong("an empty word is no COMMAND")
	}
	if c.Unix == "" && c.TCP.IsZero() {
		c.TCP = Place{"127.0.0.1", 3001}
	}
	return c, c.test(k)
}

// parse takes arguments in.
func (a *arguments) parse(words []string) error {
	var unknown []string
	for len(words) > 0 {
		word := words[0]
		if word == "--" {
			a.c.Command = words[1:]
			break
		}
		if !strings.HasPrefix(word, "-") || word == "-" {
			a.c.Command = words
			break
		}
		words = words[1:]
		if page := a.pageOf(word); page != nil {
			return page
		}
		name, value, hasValue := strings.Cut(word, "=")
		it := optionOf(a.options, strings.TrimPrefix(name, "--"))
		if it == nil || !strings.HasPrefix(name, "--") {
			unknown = append(unknown, word)
			continue
		}
		if !it.isFlag() && !hasValue && len(words) > 0 && isValue(words[0]) {
			value, hasValue, words = words[0], true, words[1:]
		}
		if err := a.take(it, value, hasValue); err != nil {
			return a.Wrong("argument --%s: %v", it.name, err)
		}
	}
	if len(unknown) > 0 {
		return a.Wrong("unrecognized arguments: %s", strings.Join(unknown, " "))
	}
	if missing := a.missing(); missing != nil {
		return a.Wrong("the following arguments are required: %s", strings.Join(missing, ", "))
	}
	return nil
}

// missing are the options that have to be given and were not, and COMMAND.
func (a *arguments) missing() []string {
	var missing []string
	for at := range a.options {
		if it := &a.options[at]; it.isRequired && !a.given[it.name] {
			missing = append(missing, "--"+it.name)
		}
	}
	if len(a.c.Command) == 0 && a.c.File == "" {
		missing = append(missing, "COMMAND")
	}
	return missing
}

// isValue reports whether a word may be the value of an option: it is no option itself.
func isValue(word string) bool {
	return !strings.HasPrefix(word, "-") || word == "-" || len(word) > 1 && strings.Contains("0123456789.", word[1:2])
}

// take sets an option.
func (a *arguments) take(it *option, value string, hasValue bool) error {
	switch {
	case it.isFlag() && hasValue:
		return fmt.Errorf("it takes no value")
	case !it.isFlag() && !hasValue:
		return fmt.Errorf("expected one argument")
	}
	if err := it.set(a.c, value); err != nil {
		return err
	}
	if a.given[it.name] && !it.isMany && !it.isFlag() {
		return fmt.Errorf("give it once")
	}
	a.given[it.name] = true
	return nil
}

// pageOf is the page that a word asks for.
func (a *arguments) pageOf(word string) *Page {
	switch word {
	case "--version":
		return &Page{a.Name + " " + Version + "\n"}
	case "-h", "--help":
		return &Page{a.help()}
	}
	return nil
}

// test is what is wrong with options that do not go together.
func (c *Config) test(k *Kind) error {
	switch {
	case (c.Certificate == "") != (c.Key == ""):
		return k.Wrong("--certificate and --key need each other")
	case c.ClientCA != "" && c.Certificate == "":
		return k.Wrong("--client-ca needs --certificate and --key")
	case c.Certificate != "" && c.TCP.IsZero():
		return k.Wrong("--certificate is for TCP: --tcp HOST:PORT")
	case !c.TCP.IsZero() && !c.MayServe(c.TCP.Host):
		return k.Wrong("%s is no loopback address: give --client-ca FILE, so that only clients with a certificate "+
			"get in, or --insecure", c.TCP.Host)
	}
	return nil
}

const aboutListener = `
Sockets for a ledger server that speaks over pipes: many clients, one ledger.

It runs the command, which reads pairs of a moment and a request, and writes replies in their order, as
` + "`tbd run` and `tbs run`" + ` do. On a socket it takes requests without a moment, one after another on each
connection, gives each its moment, and brings each reply to the connection that asked.

A command that ends in run FILE CLIENTS_MAX [PROFILE], as that of tbd, keeps its ledger in FILE (a name
of only digits is given with its folder, as ./64). If a signal ended it, it is started again.

    tb-listen status [--json] [PATH]

prints the state of a listener with --status PATH, and ends with 0 if it is ready, 1 if it is starting,
and otherwise 2.
`

// help is how the program is used.
func (a *arguments) help() string {
	var page strings.Builder
	fmt.Fprintf(&page, "usage: %s %s\n%s\noptions:\n", a.Name, a.Usage, a.About)
	line := func(name, value, help string) {
		head := "  --" + name
		if value != "" {
			head += " " + value
		}
		fmt.Fprintf(&page, "%s\n", head)
		for _, it := range wrapped(help, 76) {
			fmt.Fprintf(&page, "                        %s\n", it)
		}
	}
	for at := range a.options {
		line(a.options[at].name, a.options[at].value, a.options[at].help)
	}
	line("version", "", "print the version")
	line("help", "", "print this page")
	return page.String()
}

// wrapped is a text as lines of at most so many characters.
func wrapped(text string, width int) []string {
	var lines []string
	line := ""
	for _, word := range strings.Fields(text) {
		if line != "" && len(line)+1+len(word) > width {
			lines, line = append(lines, line), ""
		}
		if line != "" {
			line += " "
		}
		line += word
	}
	return append(lines, line)
}
