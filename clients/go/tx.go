package jnl

import (
	"bytes"
	"errors"
)

// Tx has reads and writes that are committed as one.
//
// It holds no lock. A commit compares what was read, and returns Conflict where any of it is
// another by then. A Tx that is dropped has done nothing.
type Tx struct {
	journal       *Journal
	reads, writes objects
	requests      int // how many have read
}

// Reset has the transaction begin anew, as if it had done nothing. It may then be used for another
// one, also before a Flight of the one before has ended. It keeps its room, so that takes less time
// than Begin.
func (t *Tx) Reset() {
	t.reads.reset()
	t.writes.reset()
	t.requests = 0
}

// Read returns the object's value: what the transaction wrote there, or else what it read before,
// or else what the journal has now. The caller may change the bytes.
func (t *Tx) Read(a Address) ([]byte, error) {
	values, err := t.ReadMany(a)
	if err != nil {
		return nil, err
	}
	return values[0], nil
}

// ReadMany returns the values of at most 256 objects, each as Read returns it. One request reads
// those that the transaction does not have yet, as they are at one moment.
func (t *Tx) ReadMany(addresses ...Address) ([][]byte, error) {
	if len(addresses) > maxAddresses {
		return nil, TooLarge
	}
	if err := t.fetch(t.missing(addresses)); err != nil {
		return nil, err
	}
	values := make([][]byte, len(addresses))
	for i, a := range addresses {
		value, _ := t.own(a)
		values[i] = clone(value)
	}
	return values, nil
}

// own returns what the transaction has of an object, if it has it.
func (t *Tx) own(a Address) ([]byte, bool) {
	if value, ok := t.writes.get(a); ok {
		return value, true
	}
	return t.reads.get(a)
}

// missing returns the addresses of which the transaction has nothing, each once.
func (t *Tx) missing(addresses []Address) []Address {
	var missing []Address
	seen := map[Address]bool{}
	for _, a := range addresses {
		if _, ok := t.own(a); !ok && !seen[a] {
			seen[a] = true
			missing = append(missing, a)
		}
	}
	return missing
}

// fetch reads objects into the transaction, by one request.
func (t *Tx) fetch(missing []Address) error {
	if len(missing) == 0 {
		return nil
	}
	values, err := t.journal.Read(missing...)
	if err != nil {
		return err
	}
	for i, a := range missing {
		t.reads.set(a, values[i])
	}
	t.requests++
	return nil
}

// Write has the object overwritten by the commit, which finds a wrong address or size.
func (t *Tx) Write(a Address, value []byte) {
	t.writes.set(a, value)
}

// Expect has the commit compare an object with a value that the caller knows, as if it had been
// read. It returns Conflict where the transaction has read another value.
func (t *Tx) Expect(a Address, value []byte) error {
	if known, ok := t.reads.get(a); ok && !bytes.Equal(known, value) {
		return Conflict
	}
	t.reads.set(a, value)
	return nil
}

// Commit commits: where each object that was read still has its value, all writes are done at one
// place of the history, else nothing. ErrLost leaves open whether it was done.
func (t *Tx) Commit(durability Durability) (Receipt, error) {
	return t.journal.commit(durability, &t.reads, &t.writes)
}

// run runs the work and commits it. The boolean says that the work is to be run again, because what
// it read has changed.
func (t *Tx) run(durability Durability, work func(*Tx) error) (Receipt, bool, error) {
	var receipt Receipt
	failure := work(t)
	isConflict := false
	if failure == nil {
		receipt, failure = t.Commit(durability)
		isConflict = errors.Is(failure, Conflict)
	}
	if failure == nil || saysThatThePortFailed(failure) {
		return receipt, isConflict, failure
	}
	if err := t.compareAlone(); err != nil {
		return Receipt{}, errors.Is(err, Conflict), err
	}
	return Receipt{}, false, failure
}

// compareAlone returns nil where all that was read was so at one moment, Conflict where it was not,
// or why that is not known. What one request has read was so.
func (t *Tx) compareAlone() error {
	if t.requests < 2 {
		return nil
	}
	_, err := t.journal.commit(Lazy, &t.reads, &objects{})
	return err
}

func clone(value []byte) []byte {
	return append([]byte(nil), value...)
}
