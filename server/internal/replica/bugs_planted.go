//go:build planted

package replica

var (
	Planted Bug          // that each new core has, in this binary
	Also    map[Bug]bool // more of them
)

func (c *Core) has(bug Bug) bool { return Planted == bug || Also[bug] }
