package simulator

import (
	"fmt"
	"sort"
)

// faultKind is what goes wrong.
type faultKind int

const (
	crashes faultKind = iota
	serverDies
	serverDiesAmid
	engineAway
	engineFull
	leaderChanges
	machineCut
	nodeLate
	nodeStale
	nodeRots
	nodeLoses
	twoNodesRot
	clockJumps
	clockStarts
	logTrimmed
	diskLost
	diskRots
	faultKinds
)

var faultNames = [faultKinds]string{
	"a machine crashes", "a server's process is killed", "a server's process dies amid its replies",
	"the engine has no majority", "the engine is full", "the engine changes its leader",
	"a machine reaches no node", "a node is late", "a node goes on with what it had",
	"a node's disk changes an entry", "a node's disk loses an entry", "two nodes' disks change an entry",
	"a clock jumps", "a machine starts with a wrong clock", "the log is trimmed", "a machine loses its disk",
	"a disk changes a copy",
}

// aFault is something that goes wrong at a time.
type aFault struct {
	at   int64
	kind faultKind
	who  int   // which machine, node, or entry
	size int64 // how long, or how far, in thousandths
	coin bool
}

func (f aFault) String() string {
	return fmt.Sprintf("%.1f s: %s", float64(f.at)/float64(second), faultNames[f.kind])
}

// scale is a part of a number, as the fault has it.
func (f aFault) scale(least, most int64) int64 { return least + (most-least)*f.size/1000 }

// hurt has a fault happen.
func (w *world) hurt(f aFault) {
	w.injected[f.kind] = true
	w.tell("fault: %s", faultNames[f.kind])
	m, node := w.machines[f.who%len(w.machines)], w.engine.nodes[f.who%len(w.engine.nodes)]
	switch f.kind {
	case crashes:
		if m.isUp {
			m.crash(f.scale(second/10, 3*second))
		}
	case serverDies:
		m.kill()
	case serverDiesAmid:
		if m.server != nil {
			m.server.endsAmid = true
		}
	case engineAway:
		w.engine.awayUntil = w.now + f.scale(second/2, 8*second)
	case engineFull:
		w.engine.fullUntil = w.now + f.scale(second/2, 3*second)
	case leaderChanges:
		w.engine.electsUntil = w.now + f.scale(second/10, 2*second)
		if w.engine.kind == postgresql {
			w.engine.failOver()
		}
	case machineCut:
		m.isCut = w.now + f.scale(second/2, 8*second)
	case nodeLate:
		node.lag = f.scale(second/10, 3*second)
	case nodeStale:
		node.stale = w.now
		w.after(f.scale(second, 8*second), func() { node.stale = 0 })
	case nodeRots, nodeLoses, twoNodesRot:
		w.rot(f)
	case clockJumps:
		w.machines[0].ahead = f.scale(-100*second, 100*second)
	case clockStarts:
		w.startWrong(f)
	case logTrimmed:
		w.trim(f.coin)
	case diskLost, diskRots:
		w.loseDisk(m, f)
	}
}

// rot has a node's disk change or lose an entry that is there, or the next one. Two nodes may have
// different faults in one entry.
func (w *world) rot(f aFault) {
	nodes := w.engine.nodes[:1]                           // one machine's disk is bad
	if f.kind == twoNodesRot && len(w.engine.nodes) > 3 { // most nodes stay right
		nodes = w.engine.nodes[:2]
	}
	spoil := func(it row) {
		for _, node := range nodes {
			node.rotten[it.place] = nil
			if f.kind != nodeLoses {
				bit := w.drawn.Intn(8 * len(it.data))
				data := append([]byte{}, it.data...)
				data[bit/8] ^= 1 << (bit % 8)
				node.rotten[it.place] = data
			}
		}
	}
	left := []row{}
	for _, it := range w.engine.rows {
		if it.name == "" {
			left = append(left, it)
		}
	}
	if f.coin && len(left) > 0 {
		spoil(left[f.who%len(left)])
		return
	}
	w.engine.rots = spoil
}

// startWrong has the first machine begin with a wrong clock: only it, or after an outage of all, in which
// it may be the first that is back. Two wrong clocks that agree would be right for the others.
func (w *world) startWrong(f aFault) {
	w.machines[0].ahead = f.scale(-100*second, 100*second)
	w.machines[0].crash(second)
	for _, it := range w.machines[1:] {
		if f.coin && it.isUp {
			it.crash(w.between(second/10, 30*second))
		}
	}
}

// trim removes what all listed replicas have synced, as `tb-replica trim` does.
func (w *world) trim(isCut bool) {
	if len(w.engine.names) < len(w.machines) {
		return
	}
	var least *machine
	for _, it := range w.machines {
		if it.reported < 0 {
			return
		}
		if least == nil || it.reported < least.reported {
			least = it
		}
	}
	count := least.reported
	if count > 0 && count <= len(least.disk) && least.disk[count-1].place > w.engine.trimmedPlace {
		w.engine.trim(int64(count), least.disk[count-1].place, isCut)
	}
}

// loseDisk takes what the disk of one machine holds, or changes a part of that. The others keep theirs.
func (w *world) loseDisk(m *machine, f aFault) {
	m = w.machines[len(w.machines)-1]
	if f.kind == diskRots {
		if m.synced > 0 {
			m.disk[f.who%m.synced].isChanged = true
		}
		return
	}
	m.crash(f.scale(second/10, 3*second))
	m.disk, m.synced, m.head, m.differs = nil, 0, nil, 0
}

// drawPlan draws what happens in a run.
func (w *world) drawPlan() plan {
	p := plan{calls: make([]int, w.between(1, 6)), strangers: w.drawn.Intn(4)}
	for at := range p.calls {
		p.calls[at] = int(w.between(3, 15))
	}
	at := int64(0)
	for count := w.drawn.Intn(8); count > 0; count-- {
		at += w.between(second/5, 3*second)
		p.faults = append(p.faults, aFault{
			at: at, kind: faultKind(w.drawn.Intn(int(faultKinds))), who: w.drawn.Intn(1 << 20),
			size: w.between(0, 1000), coin: w.drawn.Intn(2) == 0,
		})
	}
	sort.SliceStable(p.faults, func(a, b int) bool { return p.faults[a].at < p.faults[b].at })
	return p
}

// plan is what happens in a run: what its clients do, and what goes wrong.
type plan struct {
	calls     []int // that each client makes
	strangers int   // requests of a client that reads no reply
	faults    []aFault
}
