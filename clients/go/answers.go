package jnl

import (
	"encoding/binary"
	"errors"
	"fmt"
	"io"
)

// What a connection does with answers.

// hasEnded says whether a call was answered, or has met the end of the connection.
func (of *call) hasEnded() bool {
	return of.ended.Load() != 0
}

// await waits until a call has ended. It has the lock at first, and not at last.
func (c *connection) await(mine *call) {
	switch {
	case mine.hasEnded():
		c.mu.Unlock()
		return
	case c.isReading || c.lacksFlush(mine) && c.syncs == 0:
		c.sleep(mine)
		if mine.hasEnded() {
			return
		}
		// The reading was left to this goroutine.
		c.mu.Lock()
	default:
		c.isReading = true
	}
	c.read(mine)
}

// sleep waits until the goroutine of a call is woken. It has the lock at first, and not at last.
func (c *connection) sleep(mine *call) {
	if mine.wake == nil {
		mine.wake = make(chan struct{}, 1)
	}
	mine.isWaiting = true
	c.waiting++
	c.mu.Unlock()
	<-mine.wake
	next := mine.next
	mine.next = nil
	c.coming.Add(-1)
	if next != nil {
		next.wake <- struct{}{}
		return
	}
	// This goroutine may call again before what is held is written: that waits for a processor.
	c.mu.Lock()
	c.release()
	c.mu.Unlock()
}

// wakeLater has the goroutine of a call, if it waits, woken once the lock is free.
func (c *connection) wakeLater(of *call) {
	if !of.isWaiting {
		return
	}
	of.isWaiting = false
	c.waiting--
	c.coming.Add(1)
	if c.woken == nil {
		c.woken = of
	} else {
		c.lastWoken.next = of
	}
	c.lastWoken = of
}

// unlockAndWake wakes the first one that is to be woken, which wakes the next one. All at once
// would be taken by other processors, and wait there for the lock of each other.
func (c *connection) unlockAndWake() {
	first := c.woken
	c.woken, c.lastWoken = nil, nil
	c.mu.Unlock()
	if first != nil {
		first.wake <- struct{}{}
	}
}

// read reads answers until a call has ended; or, without one, as long as the socket takes no
// records. It has the lock at first, and not at last. Nobody else reads.
func (c *connection) read(mine *call) {
	for c.readsOn(mine) {
		isAtRest := c.isAtRest()
		if mine != nil && c.lacksFlush(mine) && c.isFree() {
			c.push(mine)
		}
		c.unlockAndWake()
		n, err := c.receive(isAtRest)
		c.mu.Lock()
		c.takeIn(n, err)
	}
	c.isReading = false
	if c.isBlocked && c.err == nil {
		c.readAside()
	}
	c.seeToReader()
	c.release()
	c.unlockAndWake()
}

// isAtRest says whether the port syncs the disk for many calls, and none of their goroutines runs.
func (c *connection) isAtRest() bool {
	return c.syncs > 0 && c.coming.Load() == 0 && c.calls.len()+len(c.unstable) >= manyCalls
}

func (c *connection) readsOn(mine *call) bool {
	if mine == nil {
		return c.isBlocked && c.err == nil
	}
	return !mine.hasEnded()
}

// seeToReader has a goroutine that waits for an answer read, with the lock held, unless one reads.
func (c *connection) seeToReader() {
	if c.isReading {
		return
	}
	next := c.firstWaiting(false)
	if next == nil && c.syncs > 0 {
		next = c.firstWaiting(true)
	}
	if next != nil {
		c.isReading = true
		c.wakeLater(next)
	}
}

// firstWaiting returns the first call whose goroutine waits, and that lacks a flush or does not. It
// returns nil where there is none.
func (c *connection) firstWaiting(lacksFlush bool) *call {
	if c.waiting == 0 {
		return nil
	}
	for _, some := range [][]*call{c.unstable, c.calls.unanswered()} {
		for _, each := range some {
			if each.isWaiting && c.lacksFlush(each) == lacksFlush {
				return each
			}
		}
	}
	return nil
}

// receive reads what comes. Where the connection is at rest, the thread waits for that itself for a
// moment: to have the runtime wait takes longer.
func (c *connection) receive(isAtRest bool) (n int, err error) {
	if isAtRest {
		c.raw.Control(awaitShortly)
	}
	return c.socket.Read(c.received[c.used:])
}

// readAside has a goroutine of its own read, with the lock held, unless one reads.
func (c *connection) readAside() {
	if !c.isReading {
		c.isReading = true
		go func() {
			c.mu.Lock()
			c.read(nil)
		}()
	}
}

// takeIn answers calls by n more bytes that were received, with the lock held. The error is why no
// others will come.
func (c *connection) takeIn(n int, err error) {
	c.used += n
	rest, wrong := c.settle(c.received[:c.used])
	if wrong == nil && err != nil {
		wrong = &failure{ErrLost, endOf(err)}
	}
	if wrong != nil {
		c.endLocked(wrong)
		return
	}
	c.received, c.used = moveTo(c.received, rest)
}

// endOf is why a connection has ended that was read to its end.
func endOf(err error) error {
	if errors.Is(err, io.EOF) {
		return io.ErrUnexpectedEOF
	}
	return err
}

// moveTo moves the bytes of an answer that is not there whole to the front of the buffer, which has
// room for all of it.
func moveTo(buffer, rest []byte) ([]byte, int) {
	if len(rest) >= lengthBytes {
		if size := lengthBytes + int(binary.BigEndian.Uint32(rest)); size > len(buffer) {
			buffer = make([]byte, size)
		}
	}
	return buffer, copy(buffer, rest)
}

// settle answers the calls whose answers are there whole, and returns the bytes behind them. What
// the answers say of commits is noted before a goroutine sees one, so before another connection.
func (c *connection) settle(came []byte) (rest []byte, err error) {
	var told, stable uint64
	for {
		record, behind, wrong := nextRecord(came)
		if record == nil {
			err = wrong
			break
		}
		if c.calls.len() == 0 {
			err = fmt.Errorf("%w: an answer that nobody asked for", ErrProtocol)
			break
		}
		of := c.calls.next()
		receipt, isDone := receiptOf(record)
		switch {
		case !isDone || of.operation != opCommit:
			err = c.settleOne(of, record)
		case of.isDeferred:
			of.receipt = receipt
		case of.isStable:
			of.receipt, stable = receipt, max(stable, receipt.Commits)
		default:
			of.receipt, told = receipt, max(told, receipt.Commits)
		}
		if err != nil {
			break
		}
		came = behind
		c.takeAnswered()
	}
	c.promises.note(told, stable)
	return came, err
}

// takeAnswered takes the first call, which was answered. It ends then, unless a flush is to come.
func (c *connection) takeAnswered() {
	of := c.calls.take()
	if of.syncs {
		c.syncs--
	}
	switch {
	case of.isDeferred && of.err == nil:
		c.unstable = append(c.unstable, of)
	case of.isOwnFlush:
		c.endUnstable(of.receipt.Commits)
		calls.Put(of)
	default:
		c.endCall(of)
	}
}

// endUnstable ends the commits that were done before a flush, which says that so many are stable.
func (c *connection) endUnstable(stable uint64) {
	told := uint64(0)
	for _, each := range c.unstable {
		if each.receipt.Commits > stable {
			each.err, told = &Unsure{each.receipt}, each.receipt.Commits
		}
	}
	c.promises.note(told, stable)
	for i, each := range c.unstable {
		c.unstable[i] = nil
		c.endCall(each)
	}
	c.unstable = c.unstable[:0]
}

// endCall ends a call. Its goroutine, if it waits, is woken once the lock is free.
func (c *connection) endCall(of *call) {
	of.ended.Store(1)
	c.wakeLater(of)
}

// settleOne answers a call. It returns an error where the answer is none of the protocol.
func (c *connection) settleOne(of *call, record []byte) error {
	of.err = (&answer{rest: record}).judge(of)
	var refusal Refusal
	var unsure *Unsure
	switch {
	case of.err == nil && of.note != nil:
		of.note()
	case errors.As(of.err, &unsure):
		c.promises.note(unsure.Receipt.Commits, 0)
	case errors.As(of.err, &refusal):
		c.isOver = c.isOver || refusal.endsSession()
	case errors.Is(of.err, ErrProtocol):
		return of.err
	}
	return nil
}

// nextRecord returns the first record of some bytes, and those behind it; or no record, where it is
// not there whole.
func nextRecord(came []byte) (record, rest []byte, err error) {
	if len(came) < lengthBytes {
		return nil, came, nil
	}
	size := int(binary.BigEndian.Uint32(came))
	if size > maxRecord {
		return nil, nil, fmt.Errorf("%w: an answer is too long", ErrProtocol)
	}
	if len(came) < lengthBytes+size {
		return nil, came, nil
	}
	return came[lengthBytes : lengthBytes+size], came[lengthBytes+size:], nil
}
