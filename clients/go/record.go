package jnl

import (
	"encoding/binary"
	"fmt"
)

// Records as they are spelled. All numbers have their highest byte first.

const (
	maxRecord    = 2097152
	maxValue     = 4096
	maxParts     = 4096
	maxAddresses = 256

	wordBytes    = 4
	addressBytes = 12
	receiptBytes = 16
	// A commit without its parts: its operation, whether it waits, and how many parts it has.
	commitBytes = 3 * wordBytes
)

const (
	opHello uint32 = iota
	opCommit
	opRead
	opFlush
	opStat
	opStop
	opCounters
	opScan
)

const (
	compare uint32 = iota
	write
)

var zeros [wordBytes]byte

// request is a record without its length, or a piece of one.
type request []byte

// newRequest returns a record with room for so many bytes behind its operation.
func newRequest(operation uint32, bytes int) request {
	return request(make([]byte, 0, wordBytes+bytes)).word(operation)
}

func (r request) word(n uint32) request {
	return binary.BigEndian.AppendUint32(r, n)
}

func (r request) boolean(b bool) request {
	if b {
		return r.word(1)
	}
	return r.word(0)
}

func (r request) address(a Address) request {
	return request(binary.BigEndian.AppendUint64(r, a.Block)).word(a.Bit)
}

func (r request) value(v []byte) request {
	r = append(r.word(uint32(len(v))), v...)
	return append(r, zeros[:padding(len(v))]...)
}

func (r request) operation() uint32 {
	return binary.BigEndian.Uint32(r)
}

// headOf adds what stands before the parts of a commit.
func headOf(r request, durability Durability, compared, written *objects) request {
	parts := len(compared.list) + len(written.list)
	return r.word(opCommit).boolean(bool(durability)).word(uint32(parts))
}

// answer is what was not read yet of a record, and what was found wrong in it.
type answer struct {
	rest []byte
	err  error
}

func (a *answer) fail(why string) {
	if a.err == nil {
		a.err = fmt.Errorf("%w: %s", ErrProtocol, why)
	}
	a.rest = nil
}

// take returns so many bytes: zeros, once the answer was found wrong.
func (a *answer) take(size int) []byte {
	if size > len(a.rest) {
		a.fail("an answer is cut short")
		return make([]byte, size)
	}
	found := a.rest[:size]
	a.rest = a.rest[size:]
	return found
}

func (a *answer) word() uint32 {
	return binary.BigEndian.Uint32(a.take(4))
}

func (a *answer) hyper() uint64 {
	return binary.BigEndian.Uint64(a.take(8))
}

func (a *answer) receipt() Receipt {
	return Receipt{a.hyper(), a.hyper()}
}

func (a *answer) value() []byte {
	size := int(a.word())
	if size > maxValue {
		a.fail("a value is too long")
		return nil
	}
	found := clone(a.take(size))
	for _, zero := range a.take(padding(size)) {
		if zero != 0 {
			a.fail("bytes stand behind a value")
		}
	}
	return found
}

// receiptOf returns the receipt of a commit that was done. It returns false for any other answer.
func receiptOf(record []byte) (Receipt, bool) {
	if len(record) != 2*wordBytes+receiptBytes || binary.BigEndian.Uint32(record) != 0 ||
		binary.BigEndian.Uint32(record[4:]) != opCommit {
		return Receipt{}, false
	}
	return Receipt{binary.BigEndian.Uint64(record[8:]), binary.BigEndian.Uint64(record[16:])}, true
}

// judge returns what the answer says to a call. Where that is done, the call's decode reads it, or
// the call gets the receipt.
func (a *answer) judge(of *call) error {
	var refused error
	switch status := Refusal(a.word()); {
	case status == 0:
		if a.word() != of.operation {
			a.fail("an answer to another request")
		}
		if of.decode != nil {
			of.decode(a)
		} else {
			of.receipt = a.receipt()
		}
	case status == statusUnsure && of.operation == opCommit:
		refused = &Unsure{a.receipt()}
	case reasons[status] != "":
		refused = status
	default:
		a.fail("an unknown status")
	}
	if len(a.rest) > 0 {
		a.fail("bytes stand behind an answer")
	}
	if a.err != nil {
		return a.err
	}
	return refused
}

// padding returns how many zeros stand behind a value of this size.
func padding(size int) int {
	return -size & 3
}
