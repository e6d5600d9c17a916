package jnl

import (
	"errors"
	"os"
	"testing"
	"time"
)

// The tests of this file are of what version 2 of the protocol has: JNL_SOCKET names a port's
// socket, JNL_FAULTY_SOCKET that of clients/tests/faulty_port.py, which lists the faults, and
// JNL_OLD_SOCKET that of a port of version 1.

const (
	// A bit whose read has the port end the connection, and be another opening from then on.
	restarts = 34
	// Bits of the tests of this file.
	firstBit = 16384
)

func dialNamed(t *testing.T, name string) *Journal {
	t.Helper()
	path := os.Getenv(name)
	if path == "" {
		t.Skip(name + " names no socket")
	}
	return dialOrFail(t, path)
}

func put(j *Journal, bit uint32, durability Durability) error {
	tx := j.Begin()
	tx.Write(Address{514, bit}, []byte{1})
	_, err := tx.Commit(durability)
	return err
}

func restart(t *testing.T, j *Journal) {
	t.Helper()
	if _, err := j.Read(Address{514, restarts}); err != nil {
		t.Fatal(err)
	}
	time.Sleep(100 * time.Millisecond)
}

func wantError(t *testing.T, what string, found, want error) {
	t.Helper()
	if !errors.Is(found, want) && found != want {
		t.Fatalf("%s: %v, not %v", what, found, want)
	}
}

func TestLazyCommitsMayBeGone(t *testing.T) {
	j := dialNamed(t, "JNL_FAULTY_SOCKET")
	wantError(t, "a commit", put(j, 200, Lazy), nil)
	restart(t, j)
	_, err := j.Flush()
	wantError(t, "a flush", err, ErrRestarted)
	all := commits(t, j)
	wantError(t, "a commit", put(j, 200, Lazy), nil)
	restart(t, j)
	wantError(t, "a commit after it", put(j, 201, Lazy), ErrRestarted)
	if found := commits(t, j); found != all+1 {
		t.Errorf("%d commits, not %d", found, all+1)
	}
	var unsure *Unsure
	if err := put(j, 8, Stable); !errors.As(err, &unsure) {
		t.Fatal(err)
	}
	restart(t, j)
	_, err = j.Stat()
	wantError(t, "a stat", err, ErrRestarted)
}

func TestStableCommitsAreThere(t *testing.T) {
	j := dialNamed(t, "JNL_FAULTY_SOCKET")
	for _, makeStable := range []func() error{
		func() error { _, err := j.Flush(); return err },
		func() error { _, err := j.Stat(); return err },
		func() error { return put(j, 203, Stable) },
	} {
		wantError(t, "a commit", put(j, 200, Lazy), nil)
		wantError(t, "what makes it stable", makeStable(), nil)
		restart(t, j)
		_, err := j.Flush()
		wantError(t, "a flush", err, nil)
	}
}

func TestRunHandsARestartOn(t *testing.T) {
	j := dialNamed(t, "JNL_FAULTY_SOCKET")
	wantError(t, "a commit", put(j, 200, Lazy), nil)
	restart(t, j)
	times := 0
	_, err := j.Run(Lazy, func(tx *Tx) error {
		times++
		tx.Write(Address{514, 204}, []byte{1})
		return nil
	})
	wantError(t, "a run", err, ErrRestarted)
	if times != 1 {
		t.Errorf("%d tries", times)
	}
}

func TestFlightsAreLostFirst(t *testing.T) {
	j := dialNamed(t, "JNL_FAULTY_SOCKET")
	submit := func(bit uint32) *Flight {
		tx := j.Begin()
		tx.Write(Address{514, bit}, []byte{1})
		return tx.Submit(Lazy)
	}
	_, err := submit(200).Wait()
	wantError(t, "a flight", err, nil)
	restart(t, j)
	_, err = submit(200).Wait()
	wantError(t, "a flight after it", err, ErrRestarted)
	_, err = submit(200).Wait()
	wantError(t, "the next flight", err, nil)
	restart(t, dialNamed(t, "JNL_FAULTY_SOCKET"))
	lost := submit(1)
	_, err = lost.Wait()
	wantError(t, "a flight that is lost", err, ErrLost)
	_, err = submit(200).Wait()
	wantError(t, "a flight after that", err, ErrRestarted)
}

func TestScansAndPools(t *testing.T) {
	j := dialNamed(t, "JNL_SOCKET")
	clear := func(tx *Tx) error {
		for bit := uint32(firstBit); bit < firstBit+64; bit++ {
			tx.Write(Address{514, bit}, []byte{0})
		}
		return nil
	}
	_, err := j.Run(Lazy, clear)
	wantError(t, "cleared bits", err, nil)
	wantError(t, "a commit", put(j, firstBit+2, Lazy), nil)
	found, err := j.Scan(514, firstBit, false, 3)
	if err != nil || len(found) != 3 || found[2] != firstBit+3 {
		t.Fatalf("%v, %v", found, err)
	}
	for _, a := range []Address{{514, 32768}, {515, 0}, {3, 0}} {
		_, err = j.Scan(a.Block, a.Bit, false, 1)
		wantError(t, "a scan of no bits", err, BadAddress)
	}
	pool := j.NewPool(514, firstBit, firstBit+64)
	taken := map[uint32]bool{firstBit + 2: true}
	take := func(tx *Tx) error {
		record, err := pool.Take(tx)
		taken[record] = true
		return err
	}
	for i := 0; i < 63; i++ {
		_, err = j.Run(Lazy, take)
		wantError(t, "a take", err, nil)
	}
	if len(taken) != 64 {
		t.Errorf("%d records were taken", len(taken))
	}
	_, err = j.Run(Lazy, take)
	wantError(t, "a take of none", err, ErrNoneFree)
	_, err = j.Run(Lazy, func(tx *Tx) error { return pool.Give(tx, firstBit+9) })
	wantError(t, "a give", err, nil)
	_, err = j.Run(Lazy, take)
	wantError(t, "a take of what was given", err, nil)
}

func TestCountersAndRegions(t *testing.T) {
	j := dialNamed(t, "JNL_SOCKET")
	counters, err := j.Counters()
	if err != nil || counters[1] < counters[2] {
		t.Errorf("%v, %v", counters, err)
	}
	if d := j.Disk(); len(d.Regions) != 4 || d.Regions[3].First != 531 || d.Version != 2 {
		t.Errorf("%v", d)
	}
	var object *ObjectRefusal
	_, err = j.Read(Address{515, 0}, Address{515, 1})
	if !errors.As(err, &object) || *object != (ObjectRefusal{BadAddress, Address{515, 1}}) {
		t.Errorf("a read: %v", err)
	}
}

func TestAPortOfVersion1(t *testing.T) {
	j := dialNamed(t, "JNL_OLD_SOCKET")
	if d := j.Disk(); d.Version != 1 || len(d.Regions) != 0 {
		t.Errorf("%v", d)
	}
	wantError(t, "a commit", put(j, firstBit, Lazy), nil)
	_, err := j.Counters()
	wantError(t, "counters", err, OtherVersion)
	_, err = j.Scan(514, 0, false, 1)
	wantError(t, "a scan", err, OtherVersion)
	_, err = j.Flush()
	wantError(t, "a flush", err, nil)
}
