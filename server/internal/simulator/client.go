package simulator

import (
	"telovamish.org/server/internal/frames"
	"telovamish.org/server/internal/replica"
	"telovamish.org/tbclient"
)

// patiences are those of clients, in which they wait for a reply: less or more than a replica does.
var patiences = [...]int64{3 * second, 3 * second, 8 * second}

// call is a request of a client, when it was made, and its reply if it returned. It is sent until one
// comes: the same bytes, to any replica.
type call struct {
	client   *client
	frame    []byte
	began    int64
	ended    int64
	reply    string
	isOver   bool // nobody waits for it: it returned, or the run ended
	try      int  // how often it was sent
	at       *machine
	isRight  bool // the machine that has answered it had the right log up to there
	requests []*replica.Request
}

// client has one request at a time.
type client struct {
	*world
	number  int
	id      uint64
	left    int // calls that it will make
	session uint64
	sent    uint32
	made    uint64
	calls   []*call
	isDone  bool
}

// goOn makes the next call.
func (c *client) goOn() {
	if c.left == 0 || c.isOver {
		c.isDone = true
		return
	}
	c.left--
	if c.session == 0 {
		c.sent = 0
		c.begin(requestOf(c.id, 0, 0, tbclient.OperationRegister, nil))
		return
	}
	c.sent++
	operation, body := c.body()
	c.begin(requestOf(c.id, c.session, c.sent, operation, body))
}

// body is what a request asks for.
func (c *client) body() (tbclient.Operation, []byte) {
	switch {
	case c.sent == 1 && c.number == 0 || c.happens(100):
		var body []byte
		for id := uint64(1); id <= 2; id++ {
			row := newRow()
			little.PutUint64(row, id)
			body = append(body, row...)
		}
		return tbclient.OperationCreateAccounts, body
	case c.happens(150):
		body := make([]byte, 32)
		body[0], body[16] = 1, 2
		return tbclient.OperationLookupAccounts, body
	}
	var body []byte
	for count := [...]int{1, 1, 1, 3}[c.drawn.Intn(4)]; count > 0; count-- {
		row := newRow()
		c.made++
		little.PutUint64(row, c.id<<32|c.made)
		little.PutUint64(row[16:], 1)
		little.PutUint64(row[32:], 2)
		little.PutUint64(row[48:], 1)
		body = append(body, row...)
	}
	return tbclient.OperationCreateTransfers, body
}

// newRow is an account or a transfer of ledger 1, with code 1.
func newRow() []byte {
	row := make([]byte, 128)
	row[112], row[116] = 1, 1
	return row
}

func (c *client) begin(frame []byte) {
	it := &call{client: c, frame: frame, began: c.now}
	c.calls = append(c.calls, it)
	it.send()
}

// send sends a call to a replica that serves, mostly to the last one.
func (k *call) send() {
	c := k.client
	if k.isOver || c.isOver {
		return
	}
	k.try++
	try := k.try
	if k.at == nil || !k.at.isServing() || c.happens(100) {
		k.leave()
		k.at = c.serving()
	}
	if k.at == nil {
		c.after(c.most(second), func() { k.again(try) })
		return
	}
	at, life := k.at, k.at.life
	c.after(c.most(50*milli), func() {
		if k.try != try || k.isOver || at.life != life || !at.isUp {
			return
		}
		k.requests = append(k.requests, at.take(k))
		if at.life == life && at.isUp && !c.isQuiet && c.happens(30) {
			k.requests = append(k.requests, at.take(k))
		}
	})
	c.after(patiences[c.number%len(patiences)], func() { k.again(try) })
}

// again sends a call once more, after the one that had no reply.
func (k *call) again(try int) {
	if k.try != try || k.isOver {
		return
	}
	k.leave()
	k.at = nil
	k.try++
	next := k.try
	k.client.after(k.client.most(second), func() {
		if k.try == next {
			k.send()
		}
	})
}

// leave closes the connection.
func (k *call) leave() {
	for _, it := range k.requests {
		if k.at != nil {
			k.at.cancel(it)
		}
	}
	k.requests = nil
}

// lost is that the replica is gone.
func (k *call) lost() {
	k.requests, k.at = nil, nil
	k.again(k.try)
}

// replied takes what a replica answers. It comes some time later.
func (k *call) replied(reply, why string, by *machine) {
	c := k.client
	if why != "" {
		try := k.try
		c.after(c.most(50*milli), func() { k.again(try) })
		return
	}
	asked, got := frames.Header(k.frame).Asker(), frames.Header(reply).Asker()
	c.see(asked == got, "client %d got a reply to another request", c.id)
	isRight := by.differs == 0 || by.server.position < by.differs
	c.isMisled = c.isMisled || !isRight
	c.after(c.most(50*milli), func() {
		if k.isOver {
			c.see(k.reply == reply || k.reply == "" || c.wasEvicted() || c.isMisled, "client %d got two replies to one request", c.id)
			return
		}
		k.isOver, k.ended, k.reply, k.isRight = true, c.now, reply, isRight
		c.tell("client %d: request %d, %s, got %s from %s, commit %d", c.id, frames.Header(reply).Number(),
			frames.Header(reply).Operation(), frames.Header(reply).Status(), by.name, frames.Header(reply).Commit())
		k.try++
		k.leave()
		c.returned(k)
	})
}

// returned goes on after a reply.
func (c *client) returned(k *call) {
	header := frames.Header(k.reply)
	isRegister := header.Operation() == tbclient.OperationRegister
	switch header.Status() {
	case tbclient.StatusReply:
		if isRegister {
			c.session = header.Session()
		}
	case tbclient.StatusNoSession, tbclient.StatusSessionTooLow:
		c.session = 0
	default:
		c.session = 0
		c.see(isRegister || c.wasEvicted() || c.isMisled, "client %d got status %s", c.id, header.Status())
	}
	c.after(c.most(300*milli), c.goOn)
}

// wasEvicted reports whether more clients than sessions have registered.
func (c *client) wasEvicted() bool { return len(c.all) > c.clientsMax }
