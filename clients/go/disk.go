package jnl

import (
	"sync"
	"sync/atomic"
)

const (
	maxRegions  = 8
	maxCounters = 256
	blockBits   = 32768
)

// Region is the blocks from one on, to the one before the next region. Their objects have so many
// bits: 1 is a bit, 64 to 16384 a record, 32768 the whole block.
type Region struct {
	First uint64
	Bits  uint32
}

// Disk is a disk that is served. Its opening is another number each time that its service is
// started, and MostBlocks is how many distinct blocks a transaction may write. A port whose Version
// of the protocol is 1 tells the blocks alone: all else is 0, and there are no regions.
type Disk struct {
	Version           uint32
	Blocks, Opening   uint64
	Slots, MostBlocks uint32
	Regions           []Region
}

// bitsOf returns how many bits the objects of a block have, or 0 where it has none.
func (d *Disk) bitsOf(block uint64) uint32 {
	for i := len(d.Regions) - 1; i >= 0 && block < d.Blocks; i-- {
		if d.Regions[i].First <= block {
			return d.Regions[i].Bits
		}
	}
	return 0
}

// objectAt returns how many bits the object at an address has, and whether there is one.
func (d *Disk) objectAt(a Address) (bits uint32, isOne bool) {
	bits = d.bitsOf(a.Block)
	// They are a power of two.
	return bits, bits != 0 && a.Bit < blockBits && a.Bit&(bits-1) == 0
}

// checkAddress refuses an address that names no object, by BadAddress. Where the port has told no
// regions it does not: the port is to find that.
func (d *Disk) checkAddress(a Address) error {
	if _, isOne := d.objectAt(a); !isOne && len(d.Regions) > 0 {
		return &ObjectRefusal{BadAddress, a}
	}
	return nil
}

// check refuses what checkAddress does, and by BadSize a value that the object never has.
func (d *Disk) check(a Address, value []byte) error {
	bits, isOne := d.objectAt(a)
	isBit := bits == 1 && len(value) == 1 && value[0] <= 1
	switch {
	case len(d.Regions) == 0:
		return nil
	case !isOne:
		return &ObjectRefusal{BadAddress, a}
	case isBit || (bits > 1 && len(value) == int(bits/8)):
		return nil
	}
	return &ObjectRefusal{BadSize, a}
}

// checkAll checks each of some objects.
func (d *Disk) checkAll(of *objects) error {
	for i := range of.list {
		if err := d.check(of.list[i].address, of.value(i)); err != nil {
			return err
		}
	}
	return nil
}

func (a *answer) region() Region {
	r := Region{a.hyper(), a.word()}
	if r.Bits != 1 && (r.Bits < 64 || r.Bits > blockBits || r.Bits&(r.Bits-1) != 0) {
		a.fail("a region has no such objects")
	}
	return r
}

// list returns the number of items that follow, of which there are so many at most.
func (a *answer) list(most int) int {
	n := a.word()
	if n > uint32(most) {
		a.fail("a list is too long")
		return 0
	}
	return int(n)
}

// disk reads the answer to a hello in a version.
func (a *answer) disk(version uint32) Disk {
	d := Disk{Version: version}
	if a.word() != version {
		a.fail("the port speaks another version")
	}
	d.Blocks = a.hyper()
	if version == firstVersion {
		return d
	}
	d.Opening, d.Slots, d.MostBlocks = a.hyper(), a.word(), a.word()
	for n := a.list(maxRegions); n > 0; n-- {
		d.Regions = append(d.Regions, a.region())
	}
	return d
}

// promises is what a client was told of commits of one opening after another.
type promises struct {
	disk atomic.Pointer[Disk] // nil: no greeting was answered yet. What it points to never changes

	mu sync.Mutex // of what follows
	// The commits up to the last one that was told, and did not wait or is not known to be stable;
	// and how many are known to be stable.
	told, stable uint64
}

// note notes that so many commits were told, and that so many are known to be stable.
func (p *promises) note(told, stable uint64) {
	p.mu.Lock()
	defer p.mu.Unlock()
	p.told, p.stable = max(p.told, told), max(p.stable, stable)
}

// noteStop notes that a service has ended after a flush.
func (p *promises) noteStop() {
	p.mu.Lock()
	defer p.mu.Unlock()
	p.stable = max(p.stable, p.told)
}

// meet notes the disk that a greeting has told. It returns true, once, if it is another opening,
// and commits of the one before may be gone. Each start of a service of version 1 is taken for the
// same one, since it does not tell which it is.
func (p *promises) meet(d Disk) bool {
	p.mu.Lock()
	defer p.mu.Unlock()
	before := p.disk.Swap(&d)
	if before == nil || (before.Version == d.Version && before.Opening == d.Opening) {
		return false
	}
	mayBeGone := p.told > p.stable
	p.told, p.stable = 0, 0
	return mayBeGone
}

// max is of two numbers, for Go before 1.21.
func max(a, b uint64) uint64 {
	if a > b {
		return a
	}
	return b
}
