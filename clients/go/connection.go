package jnl

import (
	"encoding/binary"
	"errors"
	"net"
	"runtime"
	"sync"
	"sync/atomic"
	"syscall"
	"time"
)

const (
	lengthBytes = 4
	// So many bytes of records wait for the socket. A call that finds more there waits too.
	mostHeld = 1 << 18
	// A record is written with those before it once there are so many bytes. The port works on a
	// piece while the next one is made: the less it has of deferred commits at the flush, the sooner
	// that is answered.
	pieceBytes         = 1 << 13
	deferredPieceBytes = 1 << 11
	// So many bytes are received at once.
	receivedBytes = 1 << 16
	// A flush is sent once so many commits were done that lack one, though nobody waits for them.
	mostUnstable = 4096
	// Where so many calls end at once, a thread waits for that itself.
	manyCalls = 16
	// The last byte of what says whether a commit waits, in its record.
	waitByte = 2*wordBytes - 1
)

// call is a request that has no answer yet, or that was answered and nobody has seen so.
type call struct {
	operation  uint32
	isStable   bool // a commit that is to be stable
	isFlight   bool
	isDeferred bool          // a commit that is made stable by a flush behind it
	isOwnFlush bool          // that flush. Nobody waits for it
	syncs      bool          // the port waits for the disk before it answers
	isWaiting  bool          // its goroutine is to be woken. With the lock of the connection
	ended      atomic.Uint32 // 1: it was answered, or has met the end
	number     uint64        // its place among the calls of the connection, from 0
	decode     func(*answer) // nil for a commit, whose receipt is kept
	note       func()        // called once the answer was read; may be nil
	receipt    Receipt       // of a commit. Its Commits are those that a flush says to be stable
	err        error
	wake       chan struct{} // has room for one, so nobody waits to wake it. Nil until one waits
	next       *call         // the goroutine of which is woken after that of this one
}

var calls = sync.Pool{New: func() any { return &call{wake: make(chan struct{}, 1)} }}

func newCall(operation uint32, decode func(*answer)) *call {
	made := calls.Get().(*call)
	*made = call{operation: operation, decode: decode, wake: made.wake}
	return made
}

// connection is a connection, and the calls that have no answer yet.
//
// Goroutines that call write and read themselves: to hand a piece to another goroutine takes longer
// than to write or read it. One at a time writes what is held of all. Of those that wait for an
// answer one reads for all, until its own is there. It then leaves that to another one that waits.
// While nobody waits, nobody reads, unless the socket takes no more records. With a goroutine of
// its own that reads, and with memory taken for each transaction, a connection made 0.44 of the
// commits of records that are written by hand, and without both 0.74 (measured).
//
// Many commits that are to be stable are deferred: each is sent as one that does not wait, and one
// flush behind them makes all stable. So the port does them while the next ones are made, and they
// are one group of the log, since the service lets a group grow for a while that nobody waits for.
// The flush is held back while the port syncs the disk, or a goroutine that was answered has not
// run yet, which may commit again. For 64 goroutines that makes 1.3 times as many commits as those
// that wait, in one piece, where a sync takes no time or 40 microseconds, and 1.02 with one of a
// millisecond (measured). One commit alone waits by itself.
type connection struct {
	socket net.Conn
	raw    syscall.RawConn

	// So many goroutines are to be woken, or were and have not run yet.
	coming atomic.Int64

	mu           sync.Mutex // of what follows
	calls        queue
	held         []byte    // records that are not written yet
	spare        []byte    // the room of those that were written
	isUrgent     bool      // what is held is not of deferred commits alone
	isDue        bool      // a goroutine is about to write
	isSpare      bool      // that one was begun for what was held back: another may write before it
	isWriting    bool      // a goroutine writes
	isBlocked    bool      // the socket takes no more, or never will
	isReading    bool      // a goroutine reads, or is woken to. It alone uses received and used then
	received     []byte    // what came, of which no answer is there whole
	used         int       // so many bytes of it
	syncs        int       // so many calls have no answer for which the port waits for the disk
	unstable     []*call   // the deferred commits that were done, and whose flush has no answer
	flushed      uint64    // the calls before this number have a flush behind them
	hasUnflushed bool      // a deferred commit has none
	waiting      int       // so many goroutines wait
	woken        *call     // the first of those to be woken once the lock is free; each wakes the next
	lastWoken    *call     // of these
	hasRoom      sync.Cond // told where less is held, and where the connection ends
	// The session has ended: the next call makes another connection.
	isOver bool
	err    error // why the connection has ended
	// So many flights of the Journal were lost, and nobody has waited for them.
	untold *int64
	// What the Journal was told of commits.
	promises *promises
}

func newConnection(socket net.Conn, untold *int64, told *promises) (*connection, error) {
	raw, err := socket.(syscall.Conn).SyscallConn()
	if err != nil {
		return nil, err
	}
	c := &connection{socket: socket, raw: raw, untold: untold, promises: told}
	c.received = make([]byte, receivedBytes)
	c.hasRoom.L = &c.mu
	return c, nil
}

// ask sends a request, by a record in pieces, and waits for its answer. It returns false where the
// connection is of no more use, and nothing was sent. After the limit of time, unless that is 0,
// the connection ends.
func (c *connection) ask(mine *call, limit time.Duration, pieces ...[]byte) bool {
	if limit > 0 {
		defer c.endAfter(limit).Stop()
	}
	if !c.hold(mine, pieces) {
		return false
	}
	switch {
	case c.isSpare && !c.isWriting && !c.isBusy():
		c.push(mine)
	case c.isEnough(mine):
		c.addFlush(mine)
		c.isWriting = true
		c.mu.Unlock()
		c.writeHeld()
		c.mu.Lock()
	case c.isDue || c.isWriting || c.isHeldBack(mine):
		// Another goroutine writes this record too.
	default:
		c.isDue = true
		c.mu.Unlock()
		// Others that are about to call do so first, so that many records are written at once.
		runtime.Gosched()
		c.mu.Lock()
		c.push(mine)
	}
	c.await(mine)
	return true
}

// submit sends a request as ask does, and does not wait. The record may only be held.
func (c *connection) submit(mine *call, pieces ...[]byte) bool {
	if !c.hold(mine, pieces) {
		return false
	}
	writes := c.isEnough(mine)
	if writes {
		c.addFlush(nil)
		c.isWriting = true
	}
	c.mu.Unlock()
	if writes {
		c.writeHeld()
	}
	return true
}

// send has the record of a call written, unless it was or is to be held back. It has the lock at
// last.
func (c *connection) send(of *call) {
	c.mu.Lock()
	if !c.isHeldBack(of) {
		c.push(of)
	}
}

func (c *connection) endAfter(limit time.Duration) *time.Timer {
	return time.AfterFunc(limit, func() { c.end(&failure{ErrLost, errTimedOut}) })
}

// hold adds the record of a call, in pieces, to those that are held. It returns false where the
// connection is of no more use; or else with the lock.
func (c *connection) hold(mine *call, pieces [][]byte) bool {
	size := 0
	for _, each := range pieces {
		size += len(each)
	}
	c.mu.Lock()
	for len(c.held) > mostHeld && c.err == nil {
		c.hasRoom.Wait()
	}
	// Flights that are written at once are held without a call of the system for each.
	if !c.isUsable(!mine.isFlight || len(c.held) == 0) {
		c.unlockAndWake()
		return false
	}
	c.calls.add(mine)
	c.held = binary.BigEndian.AppendUint32(c.held, uint32(size))
	at := len(c.held)
	for _, each := range pieces {
		c.held = append(c.held, each...)
	}
	if mine.isStable && (mine.isFlight || c.hasUnflushed || c.isBusy()) {
		c.held[at+waitByte] = 0
		mine.isDeferred, c.hasUnflushed = true, true
	} else {
		c.note(mine, mine.isStable)
	}
	return true
}

// note notes a call that is held and not deferred, and whether the port will wait for the disk.
func (c *connection) note(held *call, syncs bool) {
	c.isUrgent, held.syncs = true, syncs
	if syncs {
		c.syncs++
	}
}

// addFlush adds a flush behind the deferred commits that lack one, with the lock held, where it is
// needed, and not to be held back.
func (c *connection) addFlush(mine *call) {
	if !c.hasUnflushed || c.isBusy() || c.err != nil || !c.needsFlush(mine) {
		return
	}
	flush := newCall(opFlush, nil)
	flush.isOwnFlush = true
	flush.decode = func(a *answer) { flush.receipt.Commits = a.hyper() }
	c.calls.add(flush)
	c.held = binary.BigEndian.AppendUint32(c.held, wordBytes)
	c.held = binary.BigEndian.AppendUint32(c.held, opFlush)
	c.hasUnflushed, c.flushed = false, flush.number
	c.note(flush, true)
}

// lacksFlush says whether a call is a deferred commit without a flush behind it.
func (c *connection) lacksFlush(of *call) bool {
	return of.isDeferred && of.number >= c.flushed
}

// needsFlush says whether a call, or one whose goroutine waits, lacks a flush, or many do.
func (c *connection) needsFlush(mine *call) bool {
	return mine != nil && c.lacksFlush(mine) || c.firstWaiting(true) != nil ||
		len(c.unstable) >= mostUnstable
}

// isUsable says whether a call may go over the connection, with its lock held. One that owes no
// answer must be quiet. The end of another one is found by who reads; where nobody does, and nobody
// waits, looks says whether that is done here, after the answers that came before it.
func (c *connection) isUsable(looks bool) bool {
	for looks && !c.isReading && c.waiting == 0 && c.calls.len() > 0 && !c.isQuiet() {
		n, err := c.socket.Read(c.received[c.used:])
		c.takeIn(n, err)
	}
	if c.err != nil || c.calls.len() > 0 {
		return c.err == nil
	}
	return !c.isOver && c.isQuiet()
}

// isQuiet says whether the port has neither ended the connection nor sent what was not read yet.
func (c *connection) isQuiet() bool {
	var found error
	err := c.raw.Control(func(fd uintptr) {
		var byte1 [1]byte
		_, _, found = syscall.Recvfrom(int(fd), byte1[:], syscall.MSG_PEEK|syscall.MSG_DONTWAIT)
	})
	return err == nil && errors.Is(found, syscall.EAGAIN)
}

// isEnough says whether the goroutine of a call is to write what is held at once.
func (c *connection) isEnough(mine *call) bool {
	least := pieceBytes
	if mine.isDeferred {
		least = deferredPieceBytes
	}
	return !c.isWriting && len(c.held) >= least
}

// isHeldBack says whether the record of a call is to be held back, with the lock held.
func (c *connection) isHeldBack(of *call) bool {
	return of.isDeferred && c.isBusy()
}

// isBusy says whether the port syncs the disk, or a goroutine that was answered has not run yet.
func (c *connection) isBusy() bool {
	return c.syncs > 0 || c.coming.Load() > 0
}

// isFree says whether a flush may be added and written now, with the lock held.
func (c *connection) isFree() bool {
	return c.err == nil && !c.isDue && !c.isWriting && !c.isBusy()
}

// release has a flush sent that was held back, unless it is still to be, with the lock held. It is
// called wherever the connection may be busy no longer, and somebody waits.
func (c *connection) release() {
	if c.hasUnflushed && c.isFree() && c.firstWaiting(true) != nil {
		c.isDue, c.isSpare = true, true
		go func() {
			c.mu.Lock()
			c.push(nil)
			c.seeToReader()
			c.unlockAndWake()
		}()
	}
}

// push writes what is held, with the lock held, unless another goroutine writes: that one sees to
// it. The lock is free meanwhile.
func (c *connection) push(mine *call) {
	c.addFlush(mine)
	writes := !c.isWriting && len(c.held) > 0
	c.isDue, c.isSpare, c.isWriting = false, false, c.isWriting || writes
	if writes {
		c.mu.Unlock()
		c.writeHeld()
		c.mu.Lock()
	}
}

// writeHeld writes what is held, where nobody else does. What is held meanwhile, unless it may wait
// too, is for another goroutine, so that no call waits for the records of others.
func (c *connection) writeHeld() {
	c.mu.Lock()
	records := c.held
	c.held, c.spare = c.spare[:0], nil
	c.isUrgent = false
	c.hasRoom.Broadcast()
	c.mu.Unlock()
	err := c.write(records)
	c.mu.Lock()
	defer c.mu.Unlock()
	if err != nil {
		// The answers that came before the end are read first: who reads finds the end too.
		c.closeWriting()
		c.isBlocked = true
		c.readAside()
		return
	}
	if cap(records) <= 2*mostHeld {
		c.spare = records
	}
	c.isWriting = c.isUrgent || len(c.held) >= pieceBytes
	if c.isWriting {
		go c.writeHeld()
	} else {
		c.release()
	}
}

// write writes records. While the socket takes none, answers are read: a port that cannot be rid of
// them takes no further request.
func (c *connection) write(records []byte) error {
	n, err := c.writeNow(records)
	if n == len(records) || err != nil {
		return err
	}
	c.mu.Lock()
	c.isBlocked = true
	c.readAside()
	c.mu.Unlock()
	_, err = c.socket.Write(records[n:])
	c.mu.Lock()
	c.isBlocked = false
	c.mu.Unlock()
	return err
}

// writeNow writes what the socket takes at once, and returns how many bytes it took.
func (c *connection) writeNow(records []byte) (n int, err error) {
	closed := c.raw.Write(func(fd uintptr) bool {
		n, err = syscall.Write(int(fd), records)
		return true
	})
	switch {
	case closed != nil:
		return 0, closed
	case err == syscall.EAGAIN || err == syscall.EINTR:
		return 0, nil
	}
	return n, err
}

// closeWriting ends a connection that takes no more bytes, once all that came before was read.
func (c *connection) closeWriting() {
	if half, ok := c.socket.(interface{ CloseWrite() error }); ok && half.CloseWrite() == nil {
		return
	}
	c.socket.SetReadDeadline(time.Now())
}

// end closes the connection.
func (c *connection) end(reason error) {
	c.mu.Lock()
	c.endLocked(reason)
	c.unlockAndWake()
}

// endLocked closes the connection, with the lock held. The first call without an answer has met the
// reason, and the others are lost.
func (c *connection) endLocked(reason error) {
	if c.err == nil {
		c.err = reason
	}
	c.socket.Close()
	for _, each := range c.unstable {
		c.lose(each, lossAfter(reason))
	}
	c.unstable = nil
	for c.calls.len() > 0 {
		c.lose(c.calls.take(), reason)
		reason = lossAfter(reason)
	}
	c.hasRoom.Broadcast()
}

// lose ends a call that has met the end of the connection.
func (c *connection) lose(of *call, reason error) {
	of.err = reason
	if of.isFlight {
		atomic.AddInt64(c.untold, 1)
	}
	c.endCall(of)
}

// lossAfter is what a call has met whose connection another one has ended.
func lossAfter(reason error) error {
	var known *failure
	if errors.As(reason, &known) {
		return known
	}
	return &failure{ErrLost, errors.New("another answer was wrong")}
}
