package simulator

import (
	"bytes"
	"fmt"
	"sort"
	"strconv"
	"strings"

	"telovamish.org/server/internal/entries"
	"telovamish.org/server/internal/faults"
	"telovamish.org/server/internal/replica"
)

// How long something takes at most; most of it takes much less.
const (
	toStart  = 200 * milli // a process
	toWork   = 10 * milli  // an entry
	toReach  = 50 * milli  // the engine
	toAppend = 4 * second  // an append whose outcome is not known
	toRead   = 5 * milli   // the disk
	callEnds = 1 * second  // after which a call that nobody answers fails
)

// How often something happens, in a thousand.
const (
	callFails     = 10
	appendIsLate  = 20
	appendIsQuiet = 20
)

// record is an entry in a machine's copy.
type record struct {
	position  uint64
	place     int64
	data      []byte
	isChanged bool // by the disk
}

// machine is a machine over all its lives. What a life has begun does nothing in the next one.
type machine struct {
	*world
	name   string
	number int
	life   int

	disk     []record // what the system has of the copy
	synced   int      // how many of these the disk holds
	head     []byte   // that the copy's folder has
	differs  uint64   // from which position on it has another log, because its node has lost an entry; 0 if not
	isRotten bool     // it has ended by that, and has the copy yet
	given    int      // how often it was given a peer's copy
	ahead    int64    // by which its clock is ahead

	core     *replica.Core
	isUp     bool
	isCut    int64 // until when it reaches no node
	order    []int // of the nodes it reads from: the first
	reading  uint64
	readTurn uint64
	place    int64 // up to which it has read
	told     int64 // up to which the core knows of that
	isPumped bool
	timer    int64
	window   int // bytes that may be under way to its server
	server   *process
	ends     []string
	reported int // entries that the last report has as synced; -1 if there is none
	clients  map[*replica.Request]*call
}

// process is a server's process on a machine.
type process struct {
	server   Server
	position uint64
	log      entries.Hash
	replies  entries.Hash
	isKilled bool
	feeds    []*replica.Feed
	isDue    bool
	endsAmid bool // it ends amid the next replies that it writes
}

// here is a callback that does nothing in another life of the machine.
func (m *machine) here(do func()) func() {
	life := m.life
	return func() {
		if m.life == life && m.isUp {
			do()
		}
	}
}

// start begins a life with what the disk holds.
func (m *machine) start() {
	m.life++
	m.isUp, m.isPumped, m.server, m.place, m.reading = true, false, nil, 0, 0
	m.timer = 0
	m.clients = map[*replica.Request]*call{}
	m.order = m.drawn.Perm(len(m.engine.nodes))
	for at, it := range m.order { // its own machine's node comes first
		if it == m.number%len(m.order) {
			m.order[0], m.order[at] = m.order[at], m.order[0]
		}
	}
	taken, ok := m.scan()
	if !ok {
		m.end(24, "Damaged: a record that was synced is not what was written")
		return
	}
	if m.bug == CutsTheCopyShort && m.synced < len(m.disk) {
		taken.Position--
	}
	m.synced = len(m.disk)
	var writer entries.Writer
	m.drawn.Read(writer[:])
	m.tell("%s starts with %d entries, as writer %.4s", m.name, taken.Position, writer)
	var names []string
	for _, it := range m.engine.nodes {
		names = append(names, it.name)
	}
	m.core = replica.New(replica.Settings{
		Name: m.name, Address: m.name, Writer: writer, Server: "tbd", Taken: taken, Nodes: names,
		Head:     entries.Head{ClientsMax: uint64(m.clientsMax), Profile: 1, ID: m.name},
		Patience: patienceOfCore, Ahead: 10e9, Window: m.window,
	})
	m.step(&replica.Tick{})
}

// scan is what the copy has. A record that was synced and is not right is a fault.
func (m *machine) scan() (*replica.Taken, bool) {
	taken := replica.NewTaken()
	for at, it := range m.disk {
		if it.isChanged {
			if at < m.synced {
				return nil, false
			}
			m.disk = m.disk[:at]
			m.cut()
			break
		}
		entry, err := entries.ParseTrusted(it.data)
		if err != nil {
			panic(err)
		}
		taken.Count(it.place, &entry)
	}
	return taken, true
}

func (m *machine) instant() replica.Instant {
	return replica.Instant{Wall: began + m.now + m.ahead, Running: m.now + second}
}

// step tells the core of something, and does what it wants.
func (m *machine) step(event replica.Event) {
	if m.core == nil || !m.isUp {
		return
	}
	life := m.life
	for _, action := range m.core.Step(m.instant(), event) {
		if m.life != life || !m.isUp {
			return
		}
		m.do(action)
	}
}

// later has the core told of something in a while.
func (m *machine) later(pause int64, event replica.Event) {
	m.after(pause, m.here(func() { m.step(event) }))
}

// do does what the core wants. What it wants next comes in another step.
func (m *machine) do(action replica.Action) {
	switch it := action.(type) {
	case *replica.ReadStart, *replica.ReadReports, *replica.ReadClock, *replica.ReadFull, *replica.ReadTrimmed:
		m.ask(action)
	case *replica.KeepHead:
		m.head = it.Head
	case *replica.Read:
		m.read(it)
	case *replica.Append:
		m.append(it, false)
	case *replica.ReadNode:
		m.readNode(it)
	case *replica.StopNode:
	case *replica.StartServer:
		m.startServer()
	case *replica.Feed:
		m.feed(it)
	case *replica.ReadCopy:
		m.readCopy(it.Position)
	case *replica.Keep:
		m.disk = append(m.disk, record{position: it.Position, place: it.Place, data: it.Data})
		m.checkTaken(m, it)
	case *replica.SyncCopy:
		m.sync()
	case *replica.WriteReport:
		m.writeReport(it.Data)
	case *replica.Answer:
		m.answer(it.Answers)
	case *replica.Say:
		m.tell("%s: %s", m.name, it.Text)
	case *replica.SetTimer:
		m.setTimer(it.At)
	case *replica.End:
		if it.Report != nil && !m.engine.isAway() && !m.engine.isFull() && it.Line != "" {
			m.engine.report(m.name, it.Report)
		}
		m.end(it.Status, it.Line)
	default:
		panic(fmt.Sprintf("%T", action))
	}
}

// end ends a life by itself. It is started again, as systemd does it.
func (m *machine) end(status int, line string) {
	m.tell("%s ends: %s", m.name, line)
	m.ends = append(m.ends, line)
	if m.core != nil && m.core.IsOver() {
		m.see(len(m.clients) == 0, "%s ended and %d requests got no answer", m.name, len(m.clients))
	}
	m.checkEnd(m, status, line)
	m.isRotten = status == faults.Rotten.Status()
	m.isUp, m.core = false, nil
	life := m.life
	m.after(second, func() {
		if m.life == life && !m.isUp && !m.isOver {
			m.operate(status)
			m.start()
		}
	})
}

// operate is what CLUSTER.md has an operator do after a fault.
func (m *machine) operate(status int) {
	if name := nameOf(status); name == faults.Damaged || name == faults.Trimmed || name == faults.Rotten {
		m.isRotten = false
		m.disk, m.synced, m.differs = nil, 0, 0
		if peer := m.peer(); peer != nil {
			m.disk = append([]record{}, peer.disk[:peer.synced]...)
			m.synced, m.head, m.differs = len(m.disk), peer.head, peer.differs
			m.cut()
		}
		m.tell("the operator gives %s a peer's copy of %d entries", m.name, m.synced)
	}
}

// peer is one whose copy nothing is known against: that which has most, and the next time the next one.
func (m *machine) peer() *machine {
	var peers []*machine
	for _, it := range m.machines {
		if it != m && !it.isDamaged() && !it.isRotten {
			peers = append(peers, it)
		}
	}
	if len(peers) == 0 {
		return nil
	}
	sort.SliceStable(peers, func(a, b int) bool { return peers[a].synced > peers[b].synced })
	m.given++
	return peers[(m.given-1)%len(peers)]
}

// cut is that the copy has become shorter.
func (m *machine) cut() {
	if m.differs > uint64(len(m.disk)) {
		m.differs = 0
	}
}

func (m *machine) isDamaged() bool {
	for _, it := range m.disk[:m.synced] {
		if it.isChanged {
			return true
		}
	}
	return false
}

func nameOf(status int) faults.Name {
	for name := range allowed {
		if name.Status() == status {
			return name
		}
	}
	return ""
}

// crash ends a life at once. The disk holds what was synced, and any part of the rest.
func (m *machine) crash(away int64) {
	m.tell("%s crashes, for %.1f s", m.name, float64(away)/float64(second))
	m.life++
	m.isUp, m.core, m.server = false, nil, nil
	for _, it := range m.sortedCalls() {
		m.after(0, it.lost)
	}
	m.clients = nil
	if len(m.disk) > m.synced {
		m.disk = m.disk[:m.synced+m.drawn.Intn(len(m.disk)-m.synced+1)]
		m.cut()
	}
	life := m.life
	m.after(away, func() {
		if m.life == life && !m.isOver {
			m.start()
		}
	})
}

func (m *machine) setTimer(at int64) {
	m.timer = at
	m.after(at-second-m.now, m.here(func() {
		if m.timer == at {
			m.timer = 0
			m.step(&replica.Tick{})
		}
	}))
}

func (m *machine) sync() {
	count := len(m.disk)
	m.after(m.most(20*milli), m.here(func() {
		if count > m.synced {
			m.synced = count
		}
		event := &replica.CopySynced{End: int64(count)}
		if count > 0 {
			event.Position, event.Place = m.disk[count-1].position, m.disk[count-1].place
		}
		m.step(event)
	}))
}

// reach is whether a call reaches the engine, and how long that takes.
func (m *machine) reach() (pause int64, ok bool) {
	isLost := m.now < m.isCut || m.engine.isAway() || !m.isQuiet && m.happens(callFails)
	if isLost {
		return m.between(milli, callEnds), false
	}
	return m.most(toReach), true
}

var (
	noLog = replica.Failure{Kind: replica.FailedNoLog, Text: "no node answers in time"}
	full  = replica.Failure{Kind: replica.FailedFull, Text: "the quota is reached"}
)

// ask asks the engine something that changes nothing.
func (m *machine) ask(action replica.Action) {
	pause, ok := m.reach()
	m.after(pause, m.here(func() { m.step(m.replyTo(action, ok)) }))
}

func (m *machine) replyTo(action replica.Action, ok bool) replica.Event {
	e := m.engine
	switch it := action.(type) {
	case *replica.ReadStart:
		if !ok {
			return &replica.StartRead{Failed: noLog}
		}
		if e.head == nil && e.isFull() {
			return &replica.StartRead{Failed: full}
		} else if e.head == nil {
			e.head = it.Head
		}
		return &replica.StartRead{Head: e.head, KeptHead: m.head, Folder: m.name, Last: e.last,
			TrimmedPosition: e.trimmedPosition, TrimmedPlace: e.trimmedPlace}
	case *replica.ReadReports:
		if !ok {
			return &replica.ReportsRead{Failed: noLog}
		}
		return &replica.ReportsRead{Names: e.names}
	case *replica.ReadTrimmed:
		if !ok {
			return &replica.TrimmedRead{Failed: noLog}
		}
		return &replica.TrimmedRead{Position: uint64(e.trimmedPosition), Place: e.trimmedPlace}
	case *replica.ReadClock:
		return &replica.ClockRead{Clock: began + m.now, IsKnown: ok && e.kind == postgresql}
	}
	read := &replica.FullRead{}
	if e.isFull() {
		read.Text = full.Text
	}
	return read
}

// append has the engine append an entry. Whether it does may stay unknown.
func (m *machine) append(it *replica.Append, isLost bool) {
	pause, ok := m.reach()
	name, data := entryName{it.Writer, it.Number}, it.Data
	m.after(pause, m.here(func() {
		e := m.engine
		lost := &replica.AppendLost{Number: name.number, Why: noLog}
		switch {
		case !ok:
			m.step(lost)
		case e.isFull():
			lost.Why = full
			m.step(lost)
		case e.elects() || !m.isQuiet && m.happens(appendIsLate):
			if m.drawn.Intn(2) == 0 {
				m.after(m.most(toAppend), func() { m.appendLate(name, data) })
			}
			m.step(lost)
		default:
			place, known := e.append(name, data)
			if !m.isQuiet && m.happens(appendIsQuiet) {
				m.step(lost)
				return
			}
			m.after(known-m.now+m.most(toReach), m.here(func() { m.appended(name, place) }))
		}
	}))
}

// appendLate does an append whose outcome nobody is told.
func (m *machine) appendLate(name entryName, data []byte) {
	if !m.engine.isFull() {
		m.engine.append(name, data)
	}
}

// appended tells the core of an entry that is in the log. In a failover it may have been lost meanwhile.
func (m *machine) appended(name entryName, place int64) {
	if now, ok := m.engine.places[name]; !ok || now != place {
		m.step(&replica.AppendLost{Number: name.number, Why: noLog})
		return
	}
	m.step(&replica.Appended{Number: name.number, Place: place, IsNext: place == m.told+1})
}

func (m *machine) read(it *replica.Read) {
	if it.IsElsewhere {
		m.order = append(m.order[1:], m.order[0])
	}
	m.reading, m.place, m.told = it.Reading, it.After, it.After
	m.readTurn = m.engine.turnAt(it.After)
	m.wake(0)
}

// wake has the machine look for what comes next in the log.
func (m *machine) wake(pause int64) {
	if !m.isUp || m.isPumped || m.reading == 0 {
		return
	}
	m.isPumped = true
	m.after(pause, m.here(m.pump))
}

// pump reads the next row.
func (m *machine) pump() {
	m.isPumped = false
	e := m.engine
	if m.place < e.gonePlace {
		m.step(&replica.ReadGone{Reading: m.reading, Text: "the log was trimmed"})
		return
	}
	node := e.nodes[m.order[0]]
	it, ok := e.next(node, m.readTurn)
	if !ok || m.now < m.isCut || e.isAway() {
		m.wake(second)
		return
	}
	m.readTurn = it.turn
	if it.place > m.place {
		m.place = it.place
	}
	if it.name != "" {
		m.told = m.place
		m.wake(m.most(2 * milli))
		place := it.place
		if e.kind == postgresql { // only what each reported last is read
			if string(e.reports[it.name]) != string(it.data) {
				return
			}
			place = 0
		}
		m.step(&replica.ReportRead{Name: it.name, Data: it.data, Place: place})
		return
	}
	reading := m.reading
	event := &replica.EntryRead{Reading: reading, Item: replica.Item{Place: it.place, Data: it.data, Node: node.name}}
	m.isPumped = true // what is under way comes, though another reading may have begun meanwhile
	m.after(m.most(5*milli), m.here(func() {
		m.isPumped = false
		if m.reading == reading {
			m.told = m.place
		}
		m.wake(m.most(2 * milli))
		m.step(event)
	}))
}

// readNode reads one node's own entries, until no more come.
func (m *machine) readNode(it *replica.ReadNode) {
	for _, node := range m.engine.nodes {
		if node.name == it.Node {
			m.seen(it.Ask, node, it.After)
		}
	}
}

func (m *machine) seen(ask uint64, node *node, place int64) {
	m.after(m.most(toReach), m.here(func() {
		it, ok := m.engine.entryAfter(node, place)
		if !ok || m.now < m.isCut || m.engine.isAway() {
			m.step(&replica.NodeRead{Ask: ask})
			return
		}
		m.step(&replica.NodeRead{Ask: ask, Item: &replica.Item{Place: it.place, Data: it.data, Node: node.name}})
		m.seen(ask, node, it.place)
	}))
}

func (m *machine) writeReport(data []byte) {
	pause, ok := m.reach()
	m.after(pause, m.here(func() {
		isWritten := ok && !m.engine.isFull()
		if isWritten {
			m.engine.report(m.name, data)
			m.reported = reportedIn(data)
		}
		m.later(m.most(toReach), &replica.ReportWritten{IsWritten: isWritten})
	}))
}

// reportedIn is the position that a report has as synced.
func reportedIn(data []byte) int {
	_, after, _ := bytes.Cut(data, []byte(`"position":`))
	digits, _, _ := bytes.Cut(after, []byte(`,`))
	position, err := strconv.Atoi(string(digits))
	if err != nil {
		panic(err)
	}
	return position
}

// answer brings clients their replies.
func (m *machine) answer(answers []replica.Answered) {
	for _, it := range answers {
		call := m.clients[it.Request]
		m.checkWhy(it.Why)
		m.see(call != nil, "%s answers a request twice, or one that was cancelled: %s", m.name, it.Why)
		if call != nil {
			delete(m.clients, it.Request)
			call.replied(string(it.Reply), it.Why, m)
		}
	}
}

// checkWhy is that a request is refused only for a cause.
func (m *machine) checkWhy(why string) {
	switch why {
	case "":
	case "ProgramEnded":
		m.see(m.core.IsOver(), "%s goes on, and tells a client of its end", m.name)
	case "LogFull":
		m.see(m.injected[engineFull], "%s tells a client that the log is full", m.name)
	}
}

// startServer has a process follow the log.
func (m *machine) startServer() {
	it := &process{server: m.newServer()}
	m.server = it
	m.after(m.most(toStart), m.here(func() {
		if m.server == it {
			m.step(&replica.ServerBegan{})
		}
	}))
}

// kill ends the server's process by a signal. Another one is started.
func (m *machine) kill() {
	if m.server == nil {
		return
	}
	m.tell("%s loses its server's process", m.name)
	m.server.isKilled = true
	m.server = nil
	m.after(milli, m.here(func() {
		m.step(&replica.ServerLost{})
		m.startServer()
	}))
}

func (m *machine) feed(it *replica.Feed) {
	p := m.server
	if p == nil {
		return
	}
	p.feeds = append(p.feeds, it)
	if !p.isDue {
		p.isDue = true
		m.after(m.most(toWork), m.here(func() { m.work(p) }))
	}
}

// work has the server's process execute what it was given.
func (m *machine) work(p *process) {
	p.isDue = false
	feeds := p.feeds
	p.feeds = nil
	for _, it := range feeds {
		if p.isKilled || !m.execute(p, it) {
			return
		}
	}
}

// execute executes an entry, and reports whether the process goes on.
func (m *machine) execute(p *process, it *replica.Feed) bool {
	p.position++
	m.see(p.position == it.Position, "%s gave its server entry %d after %d", m.name, it.Position, p.position-1)
	p.log = p.log.Next(it.Pairs)
	replies := p.server.Entry(it.Pairs)
	ends := len(replies)
	if p.endsAmid {
		ends = m.drawn.Intn(len(replies) + 1)
	}
	life := m.life
	for index, reply := range replies {
		if index == ends {
			break
		}
		p.replies = p.replies.Next(reply)
		m.step(&replica.ReplyCame{Position: p.position, Index: uint32(index), Reply: reply})
		if m.life != life || p.isKilled {
			return false
		}
	}
	if p.endsAmid {
		m.kill()
		return false
	}
	m.step(&replica.HashesCame{Position: p.position, Log: p.log, Replies: p.replies})
	return m.life == life && m.isUp
}

func (m *machine) readCopy(position uint64) {
	count := m.drawn.Intn(8)
	m.after(m.most(toRead), m.here(func() {
		event := &replica.CopyRead{Position: position}
		for at := int(position) - 1; at < len(m.disk) && at <= int(position)-1+count; at++ {
			entry, err := entries.ParseTrusted(m.disk[at].data)
			if err != nil {
				panic(err)
			}
			event.Pairs = append(event.Pairs, entry.Pairs)
		}
		m.step(event)
	}))
}

// take takes a request of a client.
func (m *machine) take(call *call) *replica.Request {
	request := &replica.Request{Frame: call.frame}
	m.clients[request] = call
	m.step(&replica.Frame{Request: request})
	return request
}

// cancel is that a client has left.
func (m *machine) cancel(request *replica.Request) {
	if m.isUp && m.clients[request] != nil {
		delete(m.clients, request)
		m.step(&replica.Cancelled{Request: request})
	}
}

func (m *machine) sortedCalls() []*call {
	var found []*call
	for _, of := range m.all {
		for _, it := range m.clients {
			if it.client == of {
				found = append(found, it)
			}
		}
	}
	return found
}

// first is the node that is read from.
func (m *machine) first() int {
	if len(m.order) == 0 {
		return 0
	}
	return m.order[0]
}

// isServing reports whether clients may connect.
func (m *machine) isServing() bool { return m.isUp && m.core != nil && m.core.HasBegun() }

func hasFault(line string) faults.Name {
	name, _, _ := strings.Cut(line, ":")
	return faults.Name(name)
}
