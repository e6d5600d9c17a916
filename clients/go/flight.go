package jnl

import (
	"errors"
	"sync"
	"sync/atomic"
	"time"
)

// Flight is a commit that was submitted. It is for one goroutine at a time.
type Flight struct {
	call  call
	over  *connection // nil: its end is known
	limit time.Duration
}

// flights are made so many at once, which takes less time than one by one.
type flights struct {
	all  [32]Flight
	used int
}

var unused = sync.Pool{New: func() any { return new(flights) }}

func newFlight() *Flight {
	of := unused.Get().(*flights)
	made := &of.all[of.used]
	if of.used++; of.used < len(of.all) {
		unused.Put(of)
	}
	return made
}

var errUntold = errors.New("a flight was lost before: wait for it first")

// Submit commits as Commit does, and does not wait for the answer, which Wait of the Flight
// returns. So one goroutine has many commits in flight at once. Those that one goroutine submits
// are done in their order.
//
// A commit may be held back, so that many are written at once: until Wait has to wait, 8 KiB are
// held back, or 2 KiB where the last one is Stable, or any other call of the Journal. A Stable one
// is sent as one that does not wait. A flush behind it makes it stable, which is sent where Wait
// has to wait for one, or a Stable commit for its answer, once the port syncs the disk for no other
// call. While the socket takes no more, Submit waits, but the answers that come are read, so port
// and caller never wait for each other.
//
// Where the connection is lost, each Flight without an answer returns ErrLost. Those that were
// done, if any, are the first ones of these. Until Wait has returned for each of them, Submit sends
// nothing, and its Flight returns ErrLost too. So no commit is done after one that may be missing,
// unless the caller has seen that. Other calls go on over a new connection.
func (t *Tx) Submit(durability Durability) *Flight {
	j, made := t.journal, newFlight()
	if made.call.err = j.checkCommit(&t.reads, &t.writes); made.call.err != nil {
		return made
	}
	made.limit = j.Timeout
	made.call.operation, made.call.isStable, made.call.isFlight = opCommit, bool(durability), true
	var room [commitBytes]byte
	head := headOf(room[:0], durability, &t.reads, &t.writes)
	over, err := j.submit(&made.call, head, t.reads.parts, t.writes.parts)
	if err != nil {
		made.call.err = err
		return made
	}
	made.over = over
	return made
}

// submit holds the record of a flight, in pieces, and returns over which connection.
func (j *Journal) submit(mine *call, pieces ...[]byte) (*connection, error) {
	deadline := j.deadline()
	for {
		// While there are losses to be told, no connection is made: it may tell of a restart.
		if atomic.LoadInt64(&j.untold) > 0 {
			return nil, &failure{ErrLost, errUntold}
		}
		over, err := j.connected(deadline)
		if err != nil {
			return nil, err
		}
		if over.submit(mine, pieces...) {
			return over, nil
		}
		j.forget(over)
	}
}

// Wait returns the receipt of the commit once it is answered, or its error, as Commit does. A
// Timeout of the Journal is for one Wait: after it the connection ends.
func (f *Flight) Wait() (Receipt, error) {
	if f.over != nil {
		if !f.call.hasEnded() {
			f.await()
		}
		if f.call.err != nil && errors.Is(f.call.err, ErrLost) {
			atomic.AddInt64(f.over.untold, -1)
		}
		f.over = nil
	}
	return f.call.receipt, f.call.err
}

// await waits for the answer, once all that is held was sent.
func (f *Flight) await() {
	if f.limit > 0 {
		defer f.over.endAfter(f.limit).Stop()
	}
	f.over.send(&f.call)
	f.over.await(&f.call)
}
