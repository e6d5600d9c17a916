// Command bench commits small transactions over one Journal: bench SOCKET GOROUTINES FLIGHTS
// durable|lazy SECONDS. Each of the goroutines has so many commits in flight by Tx.Submit; with 1
// it waits for each by Tx.Commit. It is the loop of clients/c/bench, over the client in Go. There
// are 512 objects of 128 bytes; each transaction overwrites two, at random, in blocks that differ.
// lazy: none waits, and one flush at the end is inside the time. It prints commits a second.
package main

import (
	"fmt"
	"os"
	"strconv"
	"sync"
	"sync/atomic"
	"time"

	"palkhuveg.invalid/jnl"
)

const (
	objects       = 512
	objectBytes   = 128
	objectsABlock = 32
	firstBlock    = 515
)

// values are what is written, in turn.
var values [256][objectBytes]byte

func init() {
	for i := range values {
		for at := range values[i] {
			values[i][at] = byte(i)
		}
	}
}

func main() {
	if err := bench(os.Args); err != nil {
		fmt.Fprintln(os.Stderr, "bench:", err)
		os.Exit(1)
	}
}

// load is what is to be committed, and for how long.
type load struct {
	goroutines, flights int
	durability          jnl.Durability
	span                time.Duration
}

func loadOf(words []string) (load, error) {
	goroutines, err := strconv.Atoi(words[0])
	if err != nil {
		return load{}, err
	}
	flights, err := strconv.Atoi(words[1])
	if err != nil {
		return load{}, err
	}
	seconds, err := strconv.ParseFloat(words[3], 64)
	span := time.Duration(seconds * float64(time.Second))
	return load{goroutines, flights, words[2] == "durable", span}, err
}

func bench(words []string) error {
	if len(words) != 6 {
		return fmt.Errorf("usage: bench SOCKET GOROUTINES FLIGHTS durable|lazy SECONDS")
	}
	of, err := loadOf(words[2:])
	if err != nil {
		return err
	}
	j, err := jnl.Dial("unix", words[1])
	if err != nil {
		return err
	}
	defer j.Close()
	began := time.Now()
	commits, err := of.run(j)
	if err == nil && of.durability == jnl.Lazy {
		_, err = j.Flush()
	}
	fmt.Printf("%.0f commits/s\n", float64(commits)/time.Since(began).Seconds())
	return err
}

// run commits from all goroutines, and returns how many commits were done.
func (of load) run(j *jnl.Journal) (uint64, error) {
	var all sync.WaitGroup
	var commits uint64
	var isOver int32
	errs := make(chan error, of.goroutines)
	time.AfterFunc(of.span, func() { atomic.StoreInt32(&isOver, 1) })
	commit := of.commitUntil
	if of.flights == 1 {
		commit = of.commitOneByOne
	}
	for i := 0; i < of.goroutines; i++ {
		all.Add(1)
		go func(c *committer) {
			defer all.Done()
			mine, err := commit(c, &isOver)
			atomic.AddUint64(&commits, mine)
			errs <- err
		}(&committer{tx: j.Begin(), seed: 88172645463325252 + 7919*uint64(i)})
	}
	all.Wait()
	for i := 0; i < of.goroutines; i++ {
		if err := <-errs; err != nil {
			return commits, err
		}
	}
	return commits, nil
}

// committer makes the transactions of one goroutine, all in one Tx.
type committer struct {
	tx   *jnl.Tx
	seed uint64
	made int
}

// commitUntil commits from one goroutine until the time is over.
func (of load) commitUntil(c *committer, isOver *int32) (uint64, error) {
	done := uint64(0)
	flights := make([]*jnl.Flight, 0, of.flights)
	for i := 0; atomic.LoadInt32(isOver) == 0; i++ {
		if len(flights) < of.flights {
			flights = append(flights, nil)
		} else if _, err := flights[i%of.flights].Wait(); err != nil {
			return done, err
		} else {
			done++
		}
		flights[i%of.flights] = c.next().Submit(of.durability)
	}
	for _, each := range flights {
		if _, err := each.Wait(); err != nil {
			return done, err
		}
		done++
	}
	return done, nil
}

// commitOneByOne commits from one goroutine that waits for each.
func (of load) commitOneByOne(c *committer, isOver *int32) (done uint64, err error) {
	for ; err == nil && atomic.LoadInt32(isOver) == 0; done++ {
		_, err = c.next().Commit(of.durability)
	}
	return done, err
}

// next makes the next transaction.
func (c *committer) next() *jnl.Tx {
	first, second := c.pick(), c.pick()
	for second/objectsABlock == first/objectsABlock {
		second = c.pick()
	}
	value := values[c.made%len(values)][:]
	c.made++
	c.tx.Reset()
	c.tx.Write(address(first), value)
	c.tx.Write(address(second), value)
	return c.tx
}

func (c *committer) pick() uint64 {
	c.seed ^= c.seed << 13
	c.seed ^= c.seed >> 7
	c.seed ^= c.seed << 17
	return c.seed % objects
}

func address(i uint64) jnl.Address {
	return jnl.Address{Block: firstBlock + i/objectsABlock, Bit: uint32(i%objectsABlock) * 1024}
}
