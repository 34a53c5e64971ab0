package backend

import (
	"errors"
	"io"
	"math"
	"os"
	"regexp"
	"strconv"
	"sync"
	"time"

	"telovamish.org/server/internal/config"
	"telovamish.org/server/internal/moments"
	"telovamish.org/server/internal/process"
	"telovamish.org/server/internal/report"
)

const (
	emptyMax = 13           // bytes below which a journal's file has no entry
	progress = "--progress" // the option that has `tbd run` report when it serves
	existing = "--existing" // the option that has it make no file
)

// news is what a server that keeps its ledger reports besides faults.
var news = regexp.MustCompile(
	`^[\w./-]+: (?:made |reading |copied |cut |(ready)(?:: commit [0-9]+, time [0-9]+)?$)`)

// Child is a server as a child process. Pairs of a moment and a request go to it in one order, and its
// replies come back in that order. One that keeps its ledger in a file takes requests once it has
// reported that it is ready, and is started again if a signal ended it.
type Child struct {
	fileAt   int // which word is the file; 0 if the ledger is in memory
	patience time.Duration
	ahead    time.Duration
	log      *report.Log
	queue    *queue
	commits  *commits
	begun    chan struct{} // closed when it serves for the first time
	stopping chan struct{} // closed when the host is to end

	mu        sync.Mutex
	words     []string
	process   *process.Process
	hasBegun  bool
	isClosed  bool
	isGivenUp bool // it was killed before it took a request
}

// NewChild is a server of these words. patience is how long it is waited for at its end, and ahead how
// far its ledger's last time may lie ahead of the clock.
func NewChild(words []string, patience, ahead time.Duration, log *report.Log) *Child {
	at := journalAt(words, "run")
	file := ""
	if at > 0 {
		file = words[at]
	}
	words = append([]string(nil), words...)
	if at > 0 && !isAmong(progress, words[len(words)-2:]) {
		words = append(words, progress)
	}
	return &Child{
		fileAt:   at,
		patience: patience,
		ahead:    ahead,
		log:      log,
		queue:    newQueue(at > 0),
		commits:  newCommits(file),
		begun:    make(chan struct{}),
		stopping: make(chan struct{}),
		words:    words,
	}
}

// File is the ledger's file, or "".
func (c *Child) File() string { return c.commits.file }

func (c *Child) keeps() bool { return c.fileAt > 0 }

// Run runs the command until its input is closed, and again if a signal ended it and it keeps its
// ledger. It returns why it ended otherwise.
func (c *Child) Run() error {
	defer report.Guard()
	err := c.run()
	c.queue.over()
	return err
}

func (c *Child) run() error {
	moments, err := c.momentsOf()
	if err != nil || moments == nil {
		return err
	}
	c.queue.mu.Lock()
	c.queue.moments = moments
	c.queue.mu.Unlock()
	var restarts process.Restarts
	for lives := 0; ; lives++ {
		began := time.Now()
		ended, err := c.runOnce(lives)
		if err != nil || ended == "" {
			return err
		}
		pause := restarts.Next(time.Since(began))
		c.log.Say(report.Warning, "%s, and is started again in %g s", ended, pause.Seconds())
		if process.Within(c.stopping, pause) {
			return report.End(1, "%s, and is not started again", ended)
		}
	}
}

// runOnce runs the command once, and returns how it ended if it is started again.
func (c *Child) runOnce(lives int) (string, error) {
	status, line, err := c.live()
	var want *process.Wanting
	switch {
	case errors.As(err, &want) && lives > 0:
		return want.Line, nil
	case errors.As(err, &want):
		return "", want.Ended
	case err != nil:
		return "", err
	}
	c.mu.Lock()
	isClosed, isGivenUp := c.isClosed, c.isGivenUp
	c.mu.Unlock()
	if isClosed && (status == 0 || isGivenUp) {
		return "", nil
	}
	return c.endBySignal(status, line)
}

// endBySignal is how the command ended, if it may be started again.
func (c *Child) endBySignal(status int, line string) (string, error) {
	why, bySignal := process.Ended(c.words[0], status, line)
	if !bySignal || !c.keeps() || c.isStopping() {
		return "", why
	}
	return why.Line, nil
}

func (c *Child) isStopping() bool { return process.Within(c.stopping, 0) }

// live runs the command from its start to its end. It returns its status and its last line.
func (c *Child) live() (int, string, error) {
	p, err := process.Start(c.words, c.commits.end)
	if err != nil {
		return 0, "", err
	}
	pipe, err := newOutgoing(p.Stdin)
	if err != nil {
		return 0, "", err
	}
	name := c.words[0] // before settle, which makes other words
	c.begin(p, pipe)   // before its lines are read: settle takes that it serves only from this process
	said := process.Goes(func() string {
		return p.Stderr.Tail(func(line string) bool { return c.isNews(p, pipe, line) })
	})
	read := process.Goes(func() error { return c.readReplies(p, name) })
	select {
	case <-read.Done:
	case <-p.Exited:
	case <-pipe.broke: // it may live on
	}
	process.Within(read.Done, process.LastWords) // what it wrote before it ended is read to its end
	c.leave(said)
	if err := p.End(c.patience, said.Done, read.Done); err != nil {
		return 0, "", err
	}
	return p.Status(), process.LastLine(said.Result), read.Result
}

// readReplies reads what the process writes, until there is no more. One that writes what is no reply
// is killed.
func (c *Child) readReplies(p *process.Process, name string) error {
	if c.queue.readReplies(p.Stdout) {
		return nil
	}
	if err := p.Kill(); err != nil {
		return err
	}
	return report.End(1, "%s wrote what is no reply to a request that it was given", name)
}

// begin has pairs written to a process. One that keeps no ledger takes requests at once.
func (c *Child) begin(p *process.Process, pipe *outgoing) {
	c.mu.Lock()
	c.process = p
	isClosed := c.isClosed
	if !c.keeps() {
		c.serves()
	}
	c.mu.Unlock()
	c.queue.begin(pipe, !c.keeps(), isClosed)
}

// isNews takes a line of a start, or that the process serves. It reports that the line is no fault.
func (c *Child) isNews(p *process.Process, pipe *outgoing, line string) bool {
	if !c.keeps() {
		return false
	}
	found := news.FindStringSubmatch(line)
	switch {
	case found == nil:
		return false
	case found[1] == "":
		c.log.Say(report.Info, "%s", line)
	default:
		go c.settle(p, pipe)
	}
	return true
}

// settle lets requests be taken, once all that the process wrote at its start is counted.
func (c *Child) settle(p *process.Process, pipe *outgoing) {
	defer report.Guard()
	for until := time.Now().Add(time.Second); !isAsleep(p.Pid()) && time.Now().Before(until); {
		time.Sleep(time.Millisecond)
	}
	c.mu.Lock()
	defer c.mu.Unlock()
	if c.process != p {
		return
	}
	c.commits.begin(p)
	if !isAmong(existing, c.words[len(c.words)-2:]) { // its next start makes no file
		c.words = append(c.words, existing)
	}
	if c.queue.ready(pipe) {
		c.serves()
	}
}

// serves reports that it serves, if it does so for the first time.
func (c *Child) serves() {
	if !c.hasBegun {
		c.hasBegun = true
		close(c.begun)
	}
}

// leave has no more written to a process that ended, or is to end, and answers those that wait.
func (c *Child) leave(said *process.Task[string]) {
	c.mu.Lock()
	c.process = nil
	c.mu.Unlock()
	c.queue.leave()
	endedAs := programEnded
	if process.Within(said.Done, process.LastWords) {
		endedAs = FaultName(process.LastLine(said.Result))
	}
	c.queue.lost(endedAs)
}

// momentsOf are moments that go on where the ledger is. It is a fault if that is ahead of the clock, and
// more than was allowed. It is nil if the host is to end meanwhile.
func (c *Child) momentsOf() (*moments.Moments, error) {
	last, err := c.lastTime()
	if err != nil {
		if c.isStopping() {
			return nil, nil
		}
		return nil, err
	}
	if is := time.Duration(last - time.Now().UnixNano()); is > c.ahead {
		return nil, report.End(1, "the ledger's last time is %.3f s ahead of this computer's clock: "+
			"set the clock right, or allow it by --ahead SECONDS", is.Seconds())
	}
	c.reportGap(last, time.Now())
	return moments.New(last, c.log), nil
}

// gapSaid is how long after a ledger's last time a start is reported: a clock that is wrong by so much
// would take the ledger's time along with the first request.
const gapSaid = 24 * time.Hour

// reportGap prints how far the clock is ahead of the ledger's last time, if that is far. A clock that is
// right shows the same after a long pause, so the start goes on.
func (c *Child) reportGap(last int64, now time.Time) {
	if gap := now.Sub(time.Unix(0, last)); last > 0 && gap >= gapSaid {
		c.log.Say(report.Warning, "the clock is %.1f days ahead of the ledger's last time, %s: if it is wrong, "+
			"end %s before a request comes, which would move the ledger's time there", gap.Hours()/24,
			time.Unix(0, last).UTC().Format("2006-01-02T15:04:05Z"), c.log.Program())
	}
}

var lastTimeLine = regexp.MustCompile(`(?m)^last time ([0-9]{1,20})$`)

// lastTime is the last time of a ledger, in nanoseconds, as `check FILE` reports it. 0 if there is no
// entry.
func (c *Child) lastTime() (int64, error) {
	if !c.keeps() {
		return 0, nil
	}
	name, file := c.words[0], c.words[c.fileAt]
	found, err := os.Stat(file)
	if err != nil || found.Size() < emptyMax { // `run` makes the file, or reports why it cannot
		return 0, nil
	}
	words := append(append([]string(nil), c.words[:c.fileAt-1]...), "check", file)
	output, said, status, err := c.finished(words)
	if err != nil {
		return 0, err
	}
	if status != 0 {
		line := process.LastLine(said)
		if line == "" {
			line = name + " ended " + process.EndOf(status)
		}
		if status < 0 {
			status = 1
		}
		return 0, report.End(status, "%s", line)
	}
	time := lastTimeLine.FindStringSubmatch(output)
	if time == nil {
		return 0, report.End(1, "%s check %s prints no last time", name, file)
	}
	last, err := strconv.ParseUint(time[1], 10, 64)
	if err != nil || last > math.MaxInt64 {
		last = math.MaxInt64
	}
	return int64(last), nil
}

// finished is the output of a command that is written nothing, what it said last, and its status. It is
// killed if the host is to end.
func (c *Child) finished(words []string) (string, string, int, error) {
	p, err := process.Start(words, nil)
	if err != nil {
		var want *process.Wanting
		if errors.As(err, &want) {
			err = want.Ended
		}
		return "", "", 0, err
	}
	defer p.Close()
	p.Stdin.Close()
	said := process.Goes(func() string { return p.Stderr.Tail(nil) })
	output := process.Goes(func() string {
		text, _ := io.ReadAll(p.Stdout)
		return string(text)
	})
	for _, it := range []<-chan struct{}{output.Done, said.Done, p.Exited} {
		select {
		case <-it:
		case <-c.stopping:
			p.Kill()
			<-p.Exited
			return "", "", 0, errors.New("the host is to end")
		}
	}
	return output.Result, said.Result, p.Status(), nil
}

// Begun is closed once requests are served for the first time.
func (c *Child) Begun() <-chan struct{} { return c.begun }

// IsServing reports whether requests are served now.
func (c *Child) IsServing() bool { return c.queue.isServing() }

// Submit passes a request on, now or when it has its turn.
func (c *Child) Submit(request *Request) { c.queue.submit(request) }

// Cancel has a request no longer wait for its turn.
func (c *Child) Cancel(request *Request) bool { return c.queue.cancel(request) }

// Commits is how many commits the ledger's file has had.
func (c *Child) Commits() (int64, bool) { return c.commits.count() }

// Lag is how long the moments are behind the clock.
func (c *Child) Lag() time.Duration {
	c.queue.mu.Lock()
	it := c.queue.moments
	c.queue.mu.Unlock()
	if it == nil {
		return 0
	}
	return it.Lag()
}

// Renew does nothing: the command has no files of TLS.
func (c *Child) Renew() error { return nil }

// Stop has the command not start again.
func (c *Child) Stop() {
	c.mu.Lock()
	defer c.mu.Unlock()
	if !c.isStopping() {
		close(c.stopping)
	}
}

// Close ends the server's input. The command then replies to what it has, and ends. One that takes no
// requests yet is killed.
func (c *Child) Close() {
	c.Stop()
	c.mu.Lock()
	defer c.mu.Unlock()
	c.isClosed = true
	switch {
	case c.process == nil:
	case c.queue.isServing():
		c.queue.close()
	default:
		c.isGivenUp = true
		c.process.Kill()
	}
}

// Kill ends the command at once.
func (c *Child) Kill() {
	c.mu.Lock()
	defer c.mu.Unlock()
	if c.process != nil {
		c.process.Kill()
	}
}

// journalAt is which word of a command is the file that it keeps its ledger in: FILE of `run FILE
// CLIENTS_MAX [PROFILE] [--existing] [--progress]` at its end, or of another form. It is 0 if there is
// no such word, as in `tbs run CLIENTS_MAX [PROFILE]`.
func journalAt(words []string, form string) int {
	for i := 0; i < 2 && len(words) > 0; i++ {
		if last := words[len(words)-1]; last == progress || last == existing {
			words = words[:len(words)-1]
		}
	}
	for _, at := range []int{len(words) - 2, len(words) - 3} {
		if at > 1 && words[at-1] == form && !config.IsNumber(words[at]) && areNumbers(words[at+1:]) {
			return at
		}
	}
	return 0
}

func areNumbers(words []string) bool {
	for _, it := range words {
		if !config.IsNumber(it) {
			return false
		}
	}
	return true
}

func isAmong(word string, words []string) bool {
	for _, it := range words {
		if it == word {
			return true
		}
	}
	return false
}

var faultName = regexp.MustCompile(`^[\w./-]+: ([A-Z][A-Za-z]+)(?::|$)`)

// FaultName is the name in a program's last line, as Full in `tbd: Full`, and otherwise that it ended.
func FaultName(line string) string {
	if found := faultName.FindStringSubmatch(line); found != nil {
		return found[1]
	}
	return programEnded
}
