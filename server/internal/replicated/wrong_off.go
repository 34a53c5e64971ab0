//go:build !planted

package replicated

import (
	"telovamish.org/server/internal/moments"
	"telovamish.org/server/internal/replica"
)

// wrong is what a replica does wrong: nothing, in a program.
type wrong struct{}

// clocks are what both clocks show.
func (b *Backend) clocks() replica.Instant {
	return replica.Instant{Wall: moments.Wall(), Running: moments.Running()}
}

// steps takes an event.
func (b *Backend) steps(it replica.Event) { b.step(it) }

// says is called with each line.
func (b *Backend) says(string) {}

// appending is called with each append, before it begins.
func (b *Backend) appending(replica.Append) {}

// appends is called as an append begins.
func (b *Backend) appends() {}
