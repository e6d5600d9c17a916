// Command rows counts up one object for each of 64 goroutines over one Journal until the service is
// gone: rows SOCKET BLOCK. Each goroutine waits until its commit is stable, and goes on from what
// its object has at first. They are the first objects of the block and the next one. At the end it
// prints a line for each: the last count that was told to be stable, and the last that was sent;
// and nothing where no service answers.
package main

import (
	"encoding/binary"
	"errors"
	"fmt"
	"os"
	"strconv"
	"sync"

	"palkhuveg.invalid/jnl"
)

const (
	goroutines    = 64
	objectBytes   = 128
	objectsABlock = 32
)

// counts is what a goroutine was told, and what it sent.
type counts struct {
	told, sent uint64
}

func main() {
	if err := run(os.Args); err != nil {
		fmt.Fprintln(os.Stderr, "rows:", err)
		os.Exit(1)
	}
}

func run(words []string) error {
	if len(words) != 3 {
		return errors.New("usage: rows SOCKET BLOCK")
	}
	block, err := strconv.ParseUint(words[2], 10, 64)
	if err != nil {
		return err
	}
	j, err := jnl.Dial("unix", words[1])
	if err != nil {
		return nil
	}
	defer j.Close()
	addresses := make([]jnl.Address, goroutines)
	for i := range addresses {
		bit := uint32(i % objectsABlock * 8 * objectBytes)
		addresses[i] = jnl.Address{Block: block + uint64(i/objectsABlock), Bit: bit}
	}
	values, err := j.Read(addresses...)
	if err != nil {
		return nil
	}
	return countAll(j, addresses, values)
}

// countAll counts all objects up at once, and prints the counts.
func countAll(j *jnl.Journal, addresses []jnl.Address, values [][]byte) error {
	var all sync.WaitGroup
	found, errs := make([]counts, goroutines), make([]error, goroutines)
	for i := range addresses {
		all.Add(1)
		go func(i int) {
			defer all.Done()
			first := binary.LittleEndian.Uint64(values[i])
			found[i], errs[i] = countUp(j, addresses[i], first)
		}(i)
	}
	all.Wait()
	for i, each := range found {
		if !errors.Is(errs[i], jnl.ErrLost) && !errors.Is(errs[i], jnl.ErrNoPort) {
			return fmt.Errorf("after %d: %w", each.told, errs[i])
		}
		fmt.Println(each.told, each.sent)
	}
	return nil
}

// countUp counts an object up from what it has, until a commit fails.
func countUp(j *jnl.Journal, at jnl.Address, first uint64) (counts, error) {
	of := counts{first, first}
	for {
		of.sent++
		value := make([]byte, objectBytes)
		binary.LittleEndian.PutUint64(value, of.sent)
		tx := j.Begin()
		tx.Write(at, value)
		if _, err := tx.Commit(jnl.Stable); err != nil {
			return of, err
		}
		of.told = of.sent
	}
}
