package tbclient

// Waiting is how many calls of a client wait to be sent.
func Waiting(c *Client) int {
	c.queue.mu.Lock()
	defer c.queue.mu.Unlock()
	return len(c.queue.waiting)
}

// Moments are those of a file, by other clocks: the next one, and how they go on at a later one.
func Moments(wall, running func() int64) (next func() uint64, goOn func(int64)) {
	m := newMoments(wall, running)
	return m.next, m.goOn
}
