package replicated

import (
	"encoding/hex"
	"fmt"
	"time"

	"telovamish.org/server/internal/agreed"
	"telovamish.org/server/internal/config"
	"telovamish.org/server/internal/entries"
	"telovamish.org/server/internal/manage"
	"telovamish.org/server/internal/report"
)

// options are those of a replica, besides a listener's.
type options struct {
	url             string
	access          agreed.Access
	copy, name      string
	patience, ahead time.Duration
	isAlone         bool
	distrusted      []entries.Writer
}

const about = `
A ledger on several machines: each replica serves clients, over one agreed log.

    tb-replica status --log LOG
    tb-replica trim --log LOG [--forget NAME ..]
    tb-replica copy-from FOLDER --copy FOLDER
    tb-replica script --copy FOLDER
    tb-replica hashes --copy FOLDER [--at POSITION] -- COMMAND [WORD ..]
    tb-replica restore --log LOG --copy FOLDER

LOG is etcd://HOST[:PORT],../NAME or postgresql://HOST[:PORT],../DATABASE/NAME. COMMAND is
` + "`tbd follow CLIENTS_MAX [PROFILE]`" + `, with the same number of clients and profile on each machine; that of
` + "`hashes` reads a script, as `tb_script run 64`" + ` does. FOLDER is this replica's copy of the log.

Status 0: ended by SIGTERM or SIGINT, with all that was taken answered. Status 1: it cannot listen, or
the command failed. Status 2: wrong arguments. A fault has its name and a status of its own: 20 NoLog,
21 Trimmed, 22 Diverged, 23 OtherRules, 24 Damaged, 25 BadEntry, 26 LogFull, 27 Ahead, 28 Rotten. A
fault that the command named is passed on, with its own line and status.
`

// parse is what a replica's arguments say.
func parse(arguments []string) (*options, *config.Config, error) {
	o := &options{access: agreed.Access{Standbys: 1}, patience: 10 * time.Second, ahead: time.Minute}
	kind := &config.Kind{
		Name:    "tb-replica",
		Said:    "tb-replica",
		Usage:   "[OPTIONS] --log LOG --copy FOLDER -- COMMAND [WORD ..]",
		About:   about,
		Without: []string{"ahead", "config"},
		More:    append(manage.LogOptions(&o.url, &o.access), o.more()...),
	}
	c, err := kind.Parse(arguments)
	if err != nil {
		return o, c, err
	}
	if fault := manage.FaultOf(o.url, &o.access); fault != "" {
		return o, c, kind.Wrong("%s", fault)
	}
	if _, err := entries.HeadOf(c.Command); err != nil {
		return o, c, kind.Wrong("%v", err)
	}
	return o, c, nil
}

// more are the options of a replica besides those of its log.
func (o *options) more() []config.Option {
	return []config.Option{
		{Name: "copy", Value: "FOLDER", Help: "this replica's copy of the log", IsRequired: true,
			Set: func(text string) error {
				if o.copy = text; text == "" {
					return fmt.Errorf("an empty word is no path")
				}
				return nil
			}},
		{Name: "name", Value: "NAME", Help: "this replica's name in the log (one is made and kept in FOLDER)",
			Set: manage.SetName(&o.name)},
		{Name: "patience", Value: "SECONDS", Help: "how long a request may wait for the log until its client gets " +
			"NoLog (10)", Set: config.Seconds(0.001, 1e6, &o.patience)},
		{Name: "ahead", Value: "SECONDS", Help: "how far this clock may be ahead of the others', and the log ahead of " +
			"this clock (60)", Set: config.Seconds(0, 1e10, &o.ahead)},
		{Name: "alone", Help: "serve though neither another replica nor the engine confirms this clock",
			Set: func(string) error { o.isAlone = true; return nil }},
		{Name: "distrust", Value: "WRITER", Help: "do not compare what this writer had (after Diverged); may be repeated",
			IsMany: true, Set: o.distrust},
	}
}

func (o *options) distrust(text string) error {
	var writer entries.Writer
	data, err := hex.DecodeString(text)
	if err != nil || len(data) != len(writer) || text != hex.EncodeToString(data) {
		return fmt.Errorf("%s is no writer: 32 digits, as `status` has them", report.Quoted(text))
	}
	copy(writer[:], data)
	o.distrusted = append(o.distrusted, writer)
	return nil
}
