package jnl

import "math/rand"

// Pool has free records by the bits of a block: that of a record is 1 where it is in use. It looks
// once which records are free, and again when it has handed all of them out. It is for one
// goroutine at a time.
type Pool struct {
	journal    *Journal
	block      uint64
	first, end uint32
	free       []uint32
}

// NewPool returns the pool of the records whose bits are those of a block, from first to before
// end.
func (j *Journal) NewPool(block uint64, first, end uint32) *Pool {
	return &Pool{journal: j, block: block, first: first, end: end}
}

// Take takes a record that is free in a transaction: its commit compares the bit with 0 and sets
// it. Where another one has it by then the commit returns Conflict, and the next try takes another
// record. It returns ErrNoneFree where none is free.
func (p *Pool) Take(t *Tx) (uint32, error) {
	if len(p.free) == 0 {
		if err := p.look(); err != nil {
			return 0, err
		}
	}
	for len(p.free) > 0 {
		record := p.free[len(p.free)-1]
		p.free = p.free[:len(p.free)-1]
		at := Address{p.block, record}
		if _, isOwn := t.own(at); isOwn {
			continue
		}
		if err := t.Expect(at, []byte{0}); err != nil {
			return 0, err
		}
		t.Write(at, []byte{1})
		return record, nil
	}
	return 0, ErrNoneFree
}

// Give gives a record back in a transaction. It returns BadAddress where the record is not in use,
// or none of the pool.
func (p *Pool) Give(t *Tx, record uint32) error {
	at := Address{p.block, record}
	if record < p.first || record >= p.end {
		return &ObjectRefusal{BadAddress, at}
	}
	value, err := t.Read(at)
	if err != nil {
		return err
	}
	if value[0] == 0 {
		return &ObjectRefusal{BadAddress, at}
	}
	t.Write(at, []byte{0})
	return nil
}

// look finds which records are free, and shuffles them: two programs take different ones.
func (p *Pool) look() error {
	found, err := p.journal.Scan(p.block, p.first, false, blockBits)
	if err != nil {
		return err
	}
	for len(found) > 0 && found[len(found)-1] >= p.end {
		found = found[:len(found)-1]
	}
	rand.Shuffle(len(found), func(i, k int) { found[i], found[k] = found[k], found[i] })
	p.free = found
	return nil
}
