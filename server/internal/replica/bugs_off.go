//go:build !planted

package replica

// has is false: a program has none of the bugs.
func (c *Core) has(Bug) bool { return false }
