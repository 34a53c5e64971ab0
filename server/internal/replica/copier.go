package replica

const (
	syncEvery   = second  // after which the copy is synced
	reportBytes = 1 << 22 // of the copy after which it is reported before its time
	recordHead  = 24      // bytes of a record of the copy besides its entry
)

// copier has what was taken kept in the copy, and synced.
type copier struct {
	*Core
	kept      int64 // bytes that were kept since the start
	synced    int64 // of those, when the last sync began
	isSyncing bool
	syncAt    int64

	position, start uint64 // up to which the copy is synced
	place           int64
	reportedBytes   int64
}

func (p *copier) init(c *Core) {
	p.Core, p.syncAt = c, never
	p.position, p.place = c.taken.Position, c.taken.Place
}

func (p *copier) keep(position uint64, item Item) {
	p.kept += recordHead + int64(len(item.Data))
	p.do(&Keep{position, item.Place, item.Data})
	if p.syncAt == never && !p.isSyncing {
		p.syncAt = p.now.Running + syncEvery
	}
}

func (e *CopySynced) apply(c *Core) {
	p := &c.copier
	p.isSyncing = false
	p.position, p.place = e.Position, e.Place
	if p.position < c.taken.Position {
		p.syncAt = c.now.Running + syncEvery
	}
	if p.synced-p.reportedBytes >= reportBytes {
		c.reporter.ask()
	}
}

func (p *copier) due(now int64) int64 {
	if now >= p.syncAt && p.clock.isMet {
		p.syncAt, p.isSyncing, p.synced = never, true, p.kept
		p.do(&SyncCopy{})
	}
	if !p.clock.isMet {
		return never
	}
	return p.syncAt
}
