// Package tbclient is a client of the ledger server, over only the standard library.
//
// A [Session] is a client that is registered. It numbers its requests, has one in flight at a time,
// and sends the same bytes again until it has the reply: so a retry moves no money twice. It works
// over a [Transport]; a [Socket] is one, over Unix sockets, TCP or TLS.
//
// [Open] opens the ledger in a file, which tbd serves as a child of this process, and [NewClient]
// connects to one that listens: both return a [Client], which goroutines share.
//
// # The way that survives a crash
//
// Prepare a request, save the session, and only then send it:
//
//	session, err := tbclient.Register(ctx, socket)
//	...
//	sale := tbclient.Transfer{ID: tbclient.ID(), DebitAccountID: cash, CreditAccountID: sales,
//		Amount: tbclient.ToUint128(100), Ledger: 700, Code: 10}
//	err = session.Prepare(tbclient.CreateTransfers{sale}) // sends nothing
//	err = session.Save("session.json")
//	answer, err := session.Retry(ctx) // the same bytes until the reply is there
//	err = session.Save("session.json")
//
// After a crash, wherever it came, [Load] reads the session, and Retry sends the same bytes first.
//
// A lookup takes a number too. If the file has an older number than the session had, the next
// request gets the reply to an old one, or is refused. So a session that is saved makes its lookups
// the same way, or leaves them to another session.
//
// # Errors
//
// Each error of a call is one of the Err values by errors.Is. ErrNotSent says that the call sent
// nothing. Every other error of a call that sends leaves the request in doubt: it may have been
// executed, and Retry sends the same bytes again. Errors with more to say are found by errors.As:
// [InvalidError], [LostError], [RefusedError], [EventsFailedError] and [CancelledError].
//
// # Concurrency
//
// All types may be shared by goroutines. The calls of one session go one after another, and those of
// the sessions over one Socket too. For requests in parallel give each goroutine a session of its
// own, over a Socket of its own.
package tbclient
