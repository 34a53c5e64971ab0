package tbclient

import "encoding/binary"

// joint is the request of several lists that go out as one.
type joint struct {
	operation Operation
	bodies    [][]byte
}

// Operation is the operation of all lists.
func (j joint) Operation() Operation { return j.operation }

func (j joint) count() int {
	length := 0
	for _, body := range j.bodies {
		length += len(body)
	}
	return length / requestItemSize[j.operation]
}

func (j joint) named() string { return "items" }

func (j joint) encode(into []byte) {
	for _, body := range j.bodies {
		into = into[copy(into, body):]
	}
}

// split is what the answer says of each list, by its own indexes.
func (j joint) split(answer Answer) []Answer {
	answers := make([]Answer, len(j.bodies))
	events := uint32(0)
	for at, body := range j.bodies {
		own, first := &answers[at], events
		own.Operation = j.operation
		events += uint32(len(body) / requestItemSize[j.operation])
		own.AccountResults = takeResults(&answer.AccountResults, first, events)
		own.TransferResults = takeResults(&answer.TransferResults, first, events)
		switch j.operation {
		case OperationLookupAccounts:
			own.Accounts = takeFound(&answer.Accounts, body, Account.id)
		case OperationLookupTransfers:
			own.Transfers = takeFound(&answer.Transfers, body, Transfer.id)
		}
	}
	return answers
}

// takeResults takes the results of the events from first to below end, by their indexes from first.
func takeResults[C Code](all *Results[C], first, end uint32) Results[C] {
	var own Results[C]
	for len(*all) > 0 && (*all)[0].Index < end {
		own = append(own, Result[C]{Index: (*all)[0].Index - first, Result: (*all)[0].Result})
		*all = (*all)[1:]
	}
	return own
}

// takeFound takes the records of these ids. They come in the order of the ids.
func takeFound[T any](all *[]T, ids []byte, id func(T) Uint128) []T {
	own := []T{}
	for ; len(ids) > 0; ids = ids[idSize:] {
		if len(*all) > 0 && id((*all)[0]) == decodeUint128(ids) {
			own = append(own, (*all)[0])
			*all = (*all)[1:]
		}
	}
	return own
}

func isCreate(operation Operation) bool {
	return operation == OperationCreateAccounts || operation == OperationCreateTransfers
}

// isLinked reports whether an event is linked with the next one.
func isLinked(body []byte, event int) bool {
	flags := binary.LittleEndian.Uint16(body[event*recordSize+atTransferFlags:])
	return TransferFlags(flags)&TransferLinked != 0
}

// settled is the answer to a create that may have been executed before. A chain that was is refused
// now, because its first event exists; if all its events are there as they were asked for, each of
// them exists.
func (j joint) settled(answer Answer, find func(joint) (Answer, error)) (Answer, error) {
	body := make([]byte, j.count()*requestItemSize[j.operation])
	j.encode(body)
	var said Answer
	var err error
	switch j.operation {
	case OperationCreateAccounts:
		doubtful, ids := doubtfulOf(body, answer.AccountResults, AccountExists, AccountLinkedEventFailed)
		if len(ids) == 0 {
			return answer, nil
		}
		said, err = find(joint{OperationLookupAccounts, [][]byte{ids}})
		isDone := asAsked(body, said.Accounts, decodeAccount, Account.id, isAccountAsAsked)
		answer.AccountResults = existing(answer.AccountResults, doubtful, AccountExists, isDone)
	case OperationCreateTransfers:
		doubtful, ids := doubtfulOf(body, answer.TransferResults, TransferExists, TransferLinkedEventFailed)
		if len(ids) == 0 {
			return answer, nil
		}
		said, err = find(joint{OperationLookupTransfers, [][]byte{ids}})
		isDone := asAsked(body, said.Transfers, decodeTransfer, Transfer.id, isTransferAsAsked)
		answer.TransferResults = existing(answer.TransferResults, doubtful, TransferExists, isDone)
	}
	return answer, err
}

func (a Account) id() Uint128  { return a.ID }
func (t Transfer) id() Uint128 { return t.ID }

// asAsked reports of an event whether it is among the records that were found.
func asAsked[T any](body []byte, found []T, decode func([]byte) T, id func(T) Uint128, is func(asked, found T) bool) func(int) bool {
	known := make(map[Uint128]T, len(found))
	for _, record := range found {
		known[id(record)] = record
	}
	return func(event int) bool {
		asked := decode(body[event*recordSize:])
		k, isThere := known[id(asked)]
		return isThere && is(asked, k)
	}
}

// chain is the first event of a chain, and the event after its last one.
type chain struct{ first, end int }

// chainsOf are the chains of two events or more.
func chainsOf(body []byte) (chains []chain) {
	first := 0
	for event := 0; event < len(body)/recordSize; event++ {
		if isLinked(body, event) {
			continue
		}
		if event > first {
			chains = append(chains, chain{first, event + 1})
		}
		first = event + 1
	}
	return chains
}

// doubtfulOf are the chains whose first event exists and whose others failed with it, and the ids of
// their events.
func doubtfulOf[C Code](body []byte, results Results[C], exists, failed C) (doubtful []chain, ids []byte) {
	codes := make(map[int]C, len(results))
	for _, row := range results {
		codes[int(row.Index)] = row.Result
	}
	for _, c := range chainsOf(body) {
		isDoubtful := codes[c.first] == exists
		for event := c.first + 1; event < c.end; event++ {
			isDoubtful = isDoubtful && codes[event] == failed
		}
		if !isDoubtful {
			continue
		}
		doubtful = append(doubtful, c)
		for event := c.first; event < c.end; event++ {
			ids = append(ids, body[event*recordSize:event*recordSize+idSize]...)
		}
	}
	return doubtful, ids
}

// existing are results in which each event of a chain exists whose events are all as they were asked
// for.
func existing[C Code](results Results[C], doubtful []chain, exists C, isAsAsked func(event int) bool) Results[C] {
	done := make(map[uint32]bool)
	for _, c := range doubtful {
		isDone := true
		for event := c.first; event < c.end; event++ {
			isDone = isDone && isAsAsked(event)
		}
		for event := c.first; event < c.end; event++ {
			done[uint32(event)] = isDone
		}
	}
	settled := append(Results[C](nil), results...)
	for at, row := range settled {
		if done[row.Index] {
			settled[at].Result = exists
		}
	}
	return settled
}

// isAccountAsAsked reports whether an account is what became of the one that was asked for. Its sums
// have grown since then, and it may have been closed or opened.
func isAccountAsAsked(asked, found Account) bool {
	asked.DebitsPending, asked.DebitsPosted = found.DebitsPending, found.DebitsPosted
	asked.CreditsPending, asked.CreditsPosted = found.CreditsPending, found.CreditsPosted
	asked.Timestamp = found.Timestamp
	asked.Flags |= AccountClosed
	found.Flags |= AccountClosed
	return asked == found
}

// isTransferAsAsked reports whether a transfer is what became of the one that was asked for. A post or
// void takes from its pending transfer what it leaves out; a balancing one moves what the account had.
func isTransferAsAsked(asked, found Transfer) bool {
	const (
		resolving = TransferPostPendingTransfer | TransferVoidPendingTransfer
		balancing = TransferBalancingDebit | TransferBalancingCredit
	)
	asked.Timestamp = found.Timestamp
	if asked.Flags&(resolving|balancing) != 0 {
		asked.Amount = found.Amount
	}
	if asked.Flags&resolving != 0 {
		takeIfZero(&asked.DebitAccountID, found.DebitAccountID)
		takeIfZero(&asked.CreditAccountID, found.CreditAccountID)
		takeIfZero(&asked.PendingID, found.PendingID)
		takeIfZero(&asked.UserData128, found.UserData128)
		takeIfZero(&asked.UserData64, found.UserData64)
		takeIfZero(&asked.UserData32, found.UserData32)
		takeIfZero(&asked.Timeout, found.Timeout)
		takeIfZero(&asked.Ledger, found.Ledger)
		takeIfZero(&asked.Code, found.Code)
	}
	return asked == found
}

func takeIfZero[T comparable](field *T, from T) {
	var zero T
	if *field == zero {
		*field = from
	}
}
