// Package jnl is a client of the journal, over its port. docs/PROTOCOL.md has the bytes.
//
//	j, err := jnl.Dial("unix", "/run/disk.sock")
//	...
//	receipt, err := j.Run(jnl.Stable, func(t *jnl.Tx) error {
//		from, err := t.Read(jnl.Address{Block: 515})
//		if err != nil {
//			return err
//		}
//		...
//		t.Write(jnl.Address{Block: 515}, from)
//		return nil
//	})
//
// A Journal is one connection, for any number of goroutines at once. A call does not wait for the
// answers of others, so as many requests are in flight as there are calls. Of Stable commits at
// once each is sent as one that does not wait, and a flush behind all of them. Each returns once
// that is answered: so the disk is synced once for all of them, and the port works while they are
// made. A connection that the port has ended, for its silence or with the service, is
// made again by the next call. Where the service was started again in between, and commits of the
// Journal may be gone, that call returns ErrRestarted. Where the connection is lost, each call
// without an answer returns ErrLost. Those commits that were done, if any, are the first ones of
// these, in the order in which they were sent. A Tx is for one goroutine at a time, which has many
// commits in flight by Tx.Submit.
//
// No host serves this module: its go.mod says how a program uses it.
package jnl

import (
	"math/rand"
	"net"
	"sync"
	"sync/atomic"
	"time"
)

const (
	version      = 2
	firstVersion = 1
	// How often a transaction that meets conflicts is run.
	tries        = 100
	firstPause   = 500 * time.Microsecond
	longestPause = 100 * time.Millisecond
)

// Address is an object: its block, and its first bit there.
//
// Blocks 0 to 512 are the journal's own. What the others have follows from the regions of the disk
// (Journal.Disk). Where none were named when the disk was created, block 514 has bits, at each bit
// below 32768, each a byte 0 or 1. Blocks 515 to 530 have objects of 128 bytes, at multiples of
// 1024. Blocks 513, and 531 to the last, are objects of 4096 bytes, at bit 0.
type Address struct {
	Block uint64
	Bit   uint32
}

// Durability says when a commit is answered.
type Durability bool

const (
	// Lazy commits are answered at once, and become stable soon, or at the next Flush.
	Lazy Durability = false
	// Stable commits are answered once no crash takes them back.
	Stable Durability = true
)

// Receipt says where a commit stands: its place in the history from 0, and how many commits there
// are up to it.
type Receipt struct {
	Place, Commits uint64
}

// Stat says how many commits there are, and how many of them are stable at least.
type Stat struct {
	Commits, Stable uint64
}

// Journal is a connection to the port.
type Journal struct {
	// Timeout is the most that a call waits for the port in all; 0 is for ever. A call that waited
	// in vain returns ErrLost, as do all others that are in flight then, or ErrNoPort where it had
	// to connect again. It is not to be changed while there are calls.
	Timeout time.Duration

	// So many flights were lost, and nobody has waited for them. By atomic calls.
	untold int64

	network, address string

	connection atomic.Pointer[connection] // nil: not connected

	mu      sync.Mutex // of what follows
	dialing *dialing   // nil: no connection is being made

	promises promises
}

// Dial connects to a port: the network is "unix" or "tcp", and the address as net.Dial has it.
// It returns ErrNoPort, ErrProtocol, or a Refusal of the version.
func Dial(network, address string) (*Journal, error) {
	return DialTimeout(network, address, 0)
}

// DialTimeout connects as Dial does, with a Timeout from the first on. It returns ErrNoPort where
// the port does not answer in time.
func DialTimeout(network, address string, timeout time.Duration) (*Journal, error) {
	j := &Journal{Timeout: timeout, network: network, address: address}
	if _, err := j.connected(j.deadline()); err != nil {
		return nil, err
	}
	return j, nil
}

// Close closes the connection. Calls without an answer return ErrLost. A later call makes another
// connection.
func (j *Journal) Close() error {
	if c := j.connection.Swap(nil); c != nil {
		c.end(&failure{ErrLost, net.ErrClosed})
	}
	return nil
}

// Blocks returns how many blocks the disk has.
func (j *Journal) Blocks() uint64 {
	return j.Disk().Blocks
}

// Disk returns the disk, as the port told it when the connection was made last.
func (j *Journal) Disk() Disk {
	return *j.promises.disk.Load()
}

// isCurrent says whether the disk is known as the port has it now: the port has not ended the
// connection.
func (j *Journal) isCurrent() bool {
	c := j.connection.Load()
	if c == nil {
		return false
	}
	c.mu.Lock()
	defer c.unlockAndWake()
	return c.isUsable(true)
}

// refuse returns what a look at the disk has found. A disk that may be another by now is to say so
// itself.
func (j *Journal) refuse(found error) error {
	if found != nil && j.isCurrent() {
		return found
	}
	return nil
}

// checkCommit refuses a commit of what no record can hold, or of objects that the disk does not
// have.
func (j *Journal) checkCommit(compared, written *objects) error {
	err := compared.checkSizes()
	if err == nil {
		err = written.checkSizes()
	}
	switch {
	case len(compared.list)+len(written.list) > maxParts:
		return TooLarge
	case err != nil:
		return err
	case commitBytes+len(compared.parts)+len(written.parts) > maxRecord:
		return TooLarge
	}
	disk := j.promises.disk.Load()
	err = disk.checkAll(compared)
	if err == nil {
		err = disk.checkAll(written)
	}
	return j.refuse(err)
}

// Begin returns a transaction that has done nothing.
func (j *Journal) Begin() *Tx {
	return &Tx{journal: j, reads: objects{action: compare}, writes: objects{action: write}}
}

// Run runs the work in a transaction and commits it, again after a pause where it meets a conflict,
// up to a hundred times. An error of the work ends it, with nothing done.
//
// Work that reads by more than one request may see two moments, and so objects that do not fit
// together. Where it returns an error, or its commit is refused by BadAddress, BadSize or TooLarge,
// Run asks the port whether all that it read was so at one moment, by a commit that only compares.
// If not, the work is run again. If that request fails, Run returns its error, and not that of the
// work. Nothing was done then. ErrLost, ErrNoPort, ErrRestarted and what else says that the port
// failed is returned at once.
//
// The work must end, and not panic, whatever it reads. Tx.ReadMany reads objects of one moment.
func (j *Journal) Run(durability Durability, work func(*Tx) error) (Receipt, error) {
	for attempt := 0; ; attempt++ {
		t := j.Begin()
		receipt, isConflict, err := t.run(durability, work)
		if !isConflict || attempt+1 == tries {
			return receipt, err
		}
		pauseAfter(attempt)
	}
}

// pauseAfter sleeps for a random time, whose most doubles with each attempt.
func pauseAfter(attempt int) {
	most := longestPause
	if attempt < 8 {
		most = firstPause << (attempt + 1)
	}
	if most > longestPause {
		most = longestPause
	}
	time.Sleep(time.Duration(rand.Int63n(int64(most))))
}

// Read returns the values of at most 256 objects, all at one place of the history.
func (j *Journal) Read(addresses ...Address) ([][]byte, error) {
	if len(addresses) > maxAddresses {
		return nil, TooLarge
	}
	disk := j.promises.disk.Load()
	for _, a := range addresses {
		if err := j.refuse(disk.checkAddress(a)); err != nil {
			return nil, err
		}
	}
	r := newRequest(opRead, wordBytes+len(addresses)*addressBytes).word(uint32(len(addresses)))
	for _, a := range addresses {
		r = r.address(a)
	}
	var values [][]byte
	err := j.ask(r, func(a *answer) {
		if a.word() != uint32(len(addresses)) {
			a.fail("there are not as many values as addresses")
		}
		for range addresses {
			values = append(values, a.value())
		}
	})
	if err != nil {
		return nil, err
	}
	return values, nil
}

// Flush makes all commits stable that were answered before. It returns how many are stable of this
// opening. Where the service was started again since, so that some of this Journal may be gone, it
// returns ErrRestarted, as each call does.
func (j *Journal) Flush() (stable uint64, err error) {
	err = j.askNoting(newRequest(opFlush, 0), func(a *answer) { stable = a.hyper() },
		func() { j.promises.note(0, stable) })
	return stable, err
}

// Stat returns how many commits there are, and how many of them are stable at least.
func (j *Journal) Stat() (stat Stat, err error) {
	err = j.askNoting(newRequest(opStat, 0), func(a *answer) { stat = Stat{a.hyper(), a.hyper()} },
		func() { j.promises.note(0, stat.Stable) })
	return stat, err
}

// Stop ends the service, after a flush. It returns Forbidden where this connection may not.
func (j *Journal) Stop() error {
	return j.askNoting(newRequest(opStop, 0), func(*answer) {}, j.promises.noteStop)
}

// Counters returns what the service has counted since it opened the disk, by the names of
// docs/PROTOCOL.md. It returns OtherVersion, and nothing is sent, where the port's version is 1.
func (j *Journal) Counters() (map[uint32]uint64, error) {
	found := map[uint32]uint64{}
	err := j.askSecond(newRequest(opCounters, 0), func(a *answer) {
		for n := a.list(maxCounters); n > 0; n-- {
			name := a.word()
			found[name] = a.hyper()
		}
	})
	if err != nil {
		return nil, err
	}
	return found, nil
}

// Scan returns the bits of a block that have a value, from a bit on, ascending, at most so many.
// All bits are as they are at one moment. It returns BadAddress where the block has no bits, or the
// first one is above 32767, and OtherVersion, with nothing sent, where the port's version is 1.
func (j *Journal) Scan(block uint64, first uint32, value bool, most int) ([]uint32, error) {
	if most > blockBits {
		most = blockBits
	}
	r := newRequest(opScan, addressBytes+2*wordBytes).address(Address{block, first})
	var bits []uint32
	err := j.askSecond(r.boolean(value).word(uint32(most)), func(a *answer) {
		next := first
		for n := a.list(most); n > 0; n-- {
			bit := a.word()
			if bit < next || bit >= blockBits {
				a.fail("bits do not ascend within their block")
			}
			bits, next = append(bits, bit), bit+1
		}
	})
	if err != nil {
		return nil, err
	}
	return bits, nil
}

func (j *Journal) commit(durability Durability, compared, written *objects) (Receipt, error) {
	if err := j.checkCommit(compared, written); err != nil {
		return Receipt{}, err
	}
	mine := newCall(opCommit, nil)
	mine.isStable = bool(durability)
	var room [commitBytes]byte
	head := headOf(room[:0], durability, compared, written)
	err := j.askFor(mine, head, compared.parts, written.parts)
	receipt := mine.receipt
	calls.Put(mine)
	if err != nil {
		return Receipt{}, err
	}
	return receipt, nil
}
