package agreed

import "sync"

const appendedMax = 16 // entries that are held for a reader

// Appended are entries that were appended over a log and not read yet. A reader takes one that is the
// next after all that was read, and does not wait for it to come.
type Appended struct {
	came chan struct{}

	mu     sync.Mutex
	isRead bool
	items  []Item
}

// NewAppended is an empty list.
func NewAppended() *Appended { return &Appended{came: make(chan struct{}, 1)} }

// Came comes when an entry was appended.
func (a *Appended) Came() <-chan struct{} { return a.came }

// Begin has entries be held. The reader calls End when it ends.
func (a *Appended) Begin() { a.set(true) }

// End drops what is held.
func (a *Appended) End() { a.set(false) }

func (a *Appended) set(isRead bool) {
	a.mu.Lock()
	defer a.mu.Unlock()
	a.isRead, a.items = isRead, nil
}

// Put adds an entry, and wakes the reader.
func (a *Appended) Put(place Place, data []byte) {
	a.mu.Lock()
	if a.isRead {
		if len(a.items) == appendedMax {
			a.items = append(a.items[:0], a.items[1:]...)
		}
		a.items = append(a.items, Item{Place: place, Data: data})
	}
	a.mu.Unlock()
	a.Wake()
}

// Wake has the reader look.
func (a *Appended) Wake() {
	select {
	case a.came <- struct{}{}:
	default:
	}
}

// Next is the entry at the place after this one, if it is there. Those up to this place are dropped.
func (a *Appended) Next(after Place) (Item, bool) {
	a.mu.Lock()
	defer a.mu.Unlock()
	left := a.items[:0]
	found, ok := Item{}, false
	for _, it := range a.items {
		switch {
		case it.Place == after+1:
			found, ok = it, true
		case it.Place > after:
			left = append(left, it)
		}
	}
	for at := len(left); at < len(a.items); at++ {
		a.items[at] = Item{}
	}
	a.items = left
	return found, ok
}
