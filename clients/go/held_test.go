package jnl

import (
	"encoding/binary"
	"errors"
	"fmt"
	"net"
	"path/filepath"
	"runtime"
	"testing"
	"time"
)

// The tests of this file have commits that wait until they are stable, from many goroutines.

const (
	held = 8
	// The record of a commit that writes a bit.
	bitRecordBytes = lengthBytes + commitBytes + 2*wordBytes + addressBytes + wordBytes
	aMoment        = 100 * time.Millisecond
	patience       = 20 * time.Second
)

// heldPort greets a client and hands its connection over.
func heldPort(t *testing.T) (*Journal, net.Conn) {
	t.Helper()
	listener, err := net.Listen("unix", filepath.Join(t.TempDir(), "port"))
	if err != nil {
		t.Fatal(err)
	}
	defer listener.Close()
	accepted := make(chan net.Conn, 1)
	go func() {
		peer, err := listener.Accept()
		if err == nil {
			greet(peer)
		}
		accepted <- peer
	}()
	j := dialOrFail(t, listener.Addr().String())
	peer := <-accepted
	t.Cleanup(func() { peer.Close() })
	return j, peer
}

// pushHeld has what is held written.
func pushHeld(c *connection) {
	c.mu.Lock()
	c.push(nil)
	c.mu.Unlock()
}

// answerAll answers commits with these numbers.
func answerAll(t *testing.T, peer net.Conn, first, last uint64) {
	t.Helper()
	var all []byte
	for commits := first; commits <= last; commits++ {
		all = append(all, recordOf(committed(commits))...)
	}
	if _, err := peer.Write(all); err != nil {
		t.Fatal(err)
	}
}

// answerFlush answers a flush after so many commits.
func answerFlush(t *testing.T, peer net.Conn, commits uint64) {
	t.Helper()
	flushed := request(nil).word(0).word(opFlush)
	if _, err := peer.Write(recordOf(binary.BigEndian.AppendUint64(flushed, commits))); err != nil {
		t.Fatal(err)
	}
}

// piece is how many records came: commits that wait, commits that do not, and flushes.
type piece struct {
	waiting, others, flushes int
}

// pieceOf reads the records of a piece, which has no part of another one.
func pieceOf(t *testing.T, came []byte) (found piece) {
	t.Helper()
	for len(came) > 0 {
		record, rest, err := nextRecord(came)
		if err != nil || record == nil {
			t.Fatalf("%d bytes are no record: %v", len(came), err)
		}
		switch operation := request(record).operation(); {
		case operation == opFlush:
			found.flushes++
		case operation != opCommit:
			t.Fatalf("operation %d", operation)
		case record[waitByte] == 1:
			found.waiting++
		default:
			found.others++
		}
		came = rest
	}
	return found
}

// wantPiece wants such records to come, and no more.
func wantPiece(t *testing.T, peer net.Conn, wanted piece) {
	t.Helper()
	size := bitRecordBytes*(wanted.waiting+wanted.others) + (lengthBytes+wordBytes)*wanted.flushes
	room := make([]byte, 1<<16)
	came, limit := 0, time.Now().Add(patience)
	for came < size && time.Now().Before(limit) {
		peer.SetReadDeadline(limit)
		n, err := peer.Read(room[came:])
		if err != nil {
			t.Fatalf("%d bytes came: %v", came, err)
		}
		came += n
	}
	peer.SetReadDeadline(time.Now().Add(aMoment))
	n, _ := peer.Read(room[came:])
	if found := pieceOf(t, room[:came+n]); found != wanted {
		t.Fatalf("%+v came, not %+v", found, wanted)
	}
}

// wantNobodyTold wants no call to have ended that gives its error to a channel.
func wantNobodyTold(t *testing.T, errs <-chan error) {
	t.Helper()
	select {
	case err := <-errs:
		t.Fatalf("a call has ended: %v", err)
	case <-time.After(aMoment):
	}
}

// commitLater commits a bit from a goroutine of its own, and waits until its record is held.
func commitLater(t *testing.T, j *Journal, durability Durability, errs chan<- error) {
	t.Helper()
	c := j.connection.Load()
	c.mu.Lock()
	before := c.calls.added
	c.mu.Unlock()
	go func() { errs <- put(j, freeBit, durability) }()
	waitFor(t, c, "a record that is held", func() bool { return c.calls.added > before })
}

func wantNoErrors(t *testing.T, errs <-chan error, count int) {
	t.Helper()
	for i := 0; i < count; i++ {
		select {
		case err := <-errs:
			if err != nil {
				t.Error(err)
			}
		case <-time.After(patience):
			t.Fatal("a call does not end")
		}
	}
}

// TestCommitsOfManyShareAFlush wants them to be held back while the port syncs the disk, and nobody
// to be told before the flush is answered.
func TestCommitsOfManyShareAFlush(t *testing.T) {
	j, peer := heldPort(t)
	errs := make(chan error, 1+held)
	commitLater(t, j, Stable, errs)
	wantPiece(t, peer, piece{waiting: 1})
	for i := 0; i < held; i++ {
		commitLater(t, j, Stable, errs)
	}
	wantPiece(t, peer, piece{})
	answerAll(t, peer, 1, 1)
	wantNoErrors(t, errs, 1)
	wantPiece(t, peer, piece{others: held, flushes: 1})
	answerAll(t, peer, 2, 1+held)
	wantNobodyTold(t, errs)
	answerFlush(t, peer, 1+held)
	wantNoErrors(t, errs, held)
	if told := &j.promises; told.told > told.stable || told.stable != 1+held {
		t.Errorf("%d commits are told, and %d stable", told.told, told.stable)
	}
}

// TestManyCommitsAreSentBeforeTheirFlush wants those that are many to be sent while the port syncs.
func TestManyCommitsAreSentBeforeTheirFlush(t *testing.T) {
	j, peer := heldPort(t)
	atOnce := (deferredPieceBytes + bitRecordBytes - 1) / bitRecordBytes
	errs := make(chan error, 1+atOnce)
	commitLater(t, j, Stable, errs)
	wantPiece(t, peer, piece{waiting: 1})
	for i := 0; i < atOnce; i++ {
		commitLater(t, j, Stable, errs)
	}
	wantPiece(t, peer, piece{others: atOnce})
	answerAll(t, peer, 1, 1)
	wantPiece(t, peer, piece{flushes: 1})
	answerAll(t, peer, 2, uint64(1+atOnce))
	answerFlush(t, peer, uint64(1+atOnce))
	wantNoErrors(t, errs, 1+atOnce)
}

// TestOtherCallsAreNotHeldBack wants what was held back to be written with a call that does not
// wait for the disk, and that one to be told without a flush.
func TestOtherCallsAreNotHeldBack(t *testing.T) {
	j, peer := heldPort(t)
	errs, lazy := make(chan error, 1+held), make(chan error, 1)
	commitLater(t, j, Stable, errs)
	wantPiece(t, peer, piece{waiting: 1})
	for i := 0; i < held; i++ {
		commitLater(t, j, Stable, errs)
	}
	commitLater(t, j, Lazy, lazy)
	wantPiece(t, peer, piece{others: held + 1})
	answerAll(t, peer, 1, 2+held)
	wantNoErrors(t, errs, 1)
	wantNoErrors(t, lazy, 1)
	wantPiece(t, peer, piece{flushes: 1})
	answerFlush(t, peer, 2+held)
	wantNoErrors(t, errs, held)
}

// TestAWaitForAFlightIsNotHeldBack wants a commit that does not wait for the disk to be written
// once its answer is waited for.
func TestAWaitForAFlightIsNotHeldBack(t *testing.T) {
	j, peer := heldPort(t)
	errs := make(chan error, 2)
	commitLater(t, j, Stable, errs)
	wantPiece(t, peer, piece{waiting: 1})
	flight := submit(j, Address{514, freeBit}, []byte{1})
	go func() {
		_, err := flight.Wait()
		errs <- err
	}()
	wantPiece(t, peer, piece{others: 1})
	answerAll(t, peer, 1, 2)
	wantNoErrors(t, errs, 2)
}

// TestNoFlushIsSentForWhatNobodyWaitsFor has a lazy commit come behind a flight.
func TestNoFlushIsSentForWhatNobodyWaitsFor(t *testing.T) {
	j, peer := heldPort(t)
	errs := make(chan error, 1)
	flight := submitStable(j)
	commitLater(t, j, Lazy, errs)
	wantPiece(t, peer, piece{others: 2})
	answerAll(t, peer, 1, 2)
	wantNoErrors(t, errs, 1)
	go func() {
		_, err := flight.Wait()
		errs <- err
	}()
	wantPiece(t, peer, piece{flushes: 1})
	answerFlush(t, peer, 2)
	wantNoErrors(t, errs, 1)
}

// TestManyFlightsThatNobodyWaitsForGetAFlush wants no more to be kept than so many.
func TestManyFlightsThatNobodyWaitsForGetAFlush(t *testing.T) {
	j, peer := heldPort(t)
	go answerCommits(peer)
	for i := 0; i < 4*mostUnstable; i++ {
		submitStable(j)
	}
	c := j.connection.Load()
	waitFor(t, c, "few that are kept", func() bool {
		c.isUsable(true)
		return len(c.unstable)+c.calls.len() < 2*mostUnstable
	})
}

// answerCommits answers commits, and flushes, until the peer ends.
func answerCommits(peer net.Conn) {
	var came, answers []byte
	room := make([]byte, 1<<16)
	for commits := uint64(0); ; {
		n, err := peer.Read(room)
		came, answers = append(came, room[:n]...), answers[:0]
		for record, rest, _ := nextRecord(came); record != nil; record, rest, _ = nextRecord(came) {
			came = rest
			if request(record).operation() == opCommit {
				commits++
				answers = append(answers, recordOf(committed(commits))...)
			} else {
				flushed := request(nil).word(0).word(opFlush)
				answers = append(answers, recordOf(binary.BigEndian.AppendUint64(flushed, commits))...)
			}
		}
		if _, wrong := peer.Write(answers); err != nil || wrong != nil {
			return
		}
	}
}

// submitStable submits a commit that is to be stable.
func submitStable(j *Journal) *Flight {
	tx := j.Begin()
	tx.Write(Address{514, freeBit}, []byte{1})
	return tx.Submit(Stable)
}

// TestWhoIsWokenLastHasOthersWritten has the first of two that are answered at once commit again
// before the other one has run, which does not.
func TestWhoIsWokenLastHasOthersWritten(t *testing.T) {
	defer runtime.GOMAXPROCS(runtime.GOMAXPROCS(1))
	j, peer := heldPort(t)
	errs := make(chan error, 4)
	commitLater(t, j, Stable, errs)
	wantPiece(t, peer, piece{waiting: 1})
	go func() {
		errs <- put(j, freeBit, Stable)
		errs <- put(j, freeBit, Stable)
	}()
	c := j.connection.Load()
	waitFor(t, c, "a record that is held", func() bool { return len(c.held) > 0 })
	commitLater(t, j, Stable, errs)
	answerAll(t, peer, 1, 1)
	wantPiece(t, peer, piece{others: 2, flushes: 1})
	answerAll(t, peer, 2, 3)
	answerFlush(t, peer, 3)
	wantPiece(t, peer, piece{others: 1, flushes: 1})
	answerAll(t, peer, 4, 4)
	answerFlush(t, peer, 4)
	wantNoErrors(t, errs, 4)
}

// TestWhoDoesNotCallAgainHoldsNobodyBack has goroutines that were answered call no more, while
// others wait.
func TestWhoDoesNotCallAgainHoldsNobodyBack(t *testing.T) {
	j, peer := heldPort(t)
	errs := make(chan error, 3*held)
	commitLater(t, j, Stable, errs)
	wantPiece(t, peer, piece{waiting: 1})
	for i := 1; i < 3*held; i++ {
		commitLater(t, j, Stable, errs)
		if i == held {
			answerAll(t, peer, 1, 1)
			wantPiece(t, peer, piece{others: held, flushes: 1})
		}
	}
	wantPiece(t, peer, piece{})
	answerAll(t, peer, 2, 1+held)
	wantPiece(t, peer, piece{}) // the flush is owed still
	answerFlush(t, peer, 1+held)
	wantPiece(t, peer, piece{others: 2*held - 1, flushes: 1})
	answerAll(t, peer, 2+held, 3*held)
	answerFlush(t, peer, 3*held)
	wantNoErrors(t, errs, 3*held)
}

// TestACommitWaitsBehindAFlight has a flush be owed of which nobody waits for the answer.
func TestACommitWaitsBehindAFlight(t *testing.T) {
	j, peer := heldPort(t)
	errs := make(chan error, 1)
	flight, c := submitStable(j), j.connection.Load()
	c.mu.Lock()
	c.push(&flight.call)
	c.mu.Unlock()
	wantPiece(t, peer, piece{others: 1, flushes: 1})
	commitLater(t, j, Stable, errs)
	wantPiece(t, peer, piece{})
	answerAll(t, peer, 1, 1)
	answerFlush(t, peer, 1)
	wantPiece(t, peer, piece{others: 1, flushes: 1})
	answerAll(t, peer, 2, 2)
	answerFlush(t, peer, 2)
	wantNoErrors(t, errs, 1)
	if _, err := end(t, flight); err != nil {
		t.Error(err)
	}
}

// TestAnotherReadsTheAnswerToAFlush has who reads be answered before a flush that is owed, of which
// nobody waits for the answer.
func TestAnotherReadsTheAnswerToAFlush(t *testing.T) {
	j, peer := heldPort(t)
	errs, lazy := make(chan error, 1), make(chan error, 1)
	commitLater(t, j, Lazy, lazy)
	wantPiece(t, peer, piece{others: 1})
	flight, c := submitStable(j), j.connection.Load()
	c.mu.Lock()
	c.push(&flight.call)
	c.mu.Unlock()
	wantPiece(t, peer, piece{others: 1, flushes: 1})
	commitLater(t, j, Stable, errs)
	answerAll(t, peer, 1, 1)
	wantNoErrors(t, lazy, 1)
	wantPiece(t, peer, piece{})
	answerAll(t, peer, 2, 2)
	answerFlush(t, peer, 2)
	wantPiece(t, peer, piece{others: 1, flushes: 1})
	answerAll(t, peer, 3, 3)
	answerFlush(t, peer, 3)
	wantNoErrors(t, errs, 1)
}

// TestARefusedFlush wants the commits before it to be unsure, and one that was refused to be so.
func TestARefusedFlush(t *testing.T) {
	j, peer := heldPort(t)
	errs := make(chan error, 1+held)
	commitLater(t, j, Stable, errs)
	wantPiece(t, peer, piece{waiting: 1})
	commitLater(t, j, Stable, errs)
	commitLater(t, j, Stable, errs)
	answerAll(t, peer, 1, 1)
	wantNoErrors(t, errs, 1)
	wantPiece(t, peer, piece{others: 2, flushes: 1})
	refused := append(recordOf(request(nil).word(uint32(Conflict))), recordOf(committed(2))...)
	if _, err := peer.Write(append(refused, recordOf(request(nil).word(uint32(Closed)))...)); err != nil {
		t.Fatal(err)
	}
	wantError(t, "a commit that was refused", <-errs, Conflict)
	wantUnsure(t, j, <-errs, 2)
}

// wantUnsure wants an error to say that this commit is not known to be stable, and the one before
// it to be known so.
func wantUnsure(t *testing.T, j *Journal, err error, commits uint64) {
	t.Helper()
	var unsure *Unsure
	if !errors.As(err, &unsure) || unsure.Receipt.Commits != commits {
		t.Errorf("commit %d: %v", commits, err)
	}
	if told := &j.promises; told.told != commits || told.stable != commits-1 {
		t.Errorf("%d commits are told, and %d stable", told.told, told.stable)
	}
}

// TestAFlushOfFewer has a flush say that less is stable than was done before it.
func TestAFlushOfFewer(t *testing.T) {
	j, peer := heldPort(t)
	errs, first := make(chan error, 1), make(chan error, 2)
	commitLater(t, j, Stable, first)
	wantPiece(t, peer, piece{waiting: 1})
	commitLater(t, j, Stable, first)
	commitLater(t, j, Stable, errs)
	answerAll(t, peer, 1, 1)
	wantPiece(t, peer, piece{others: 2, flushes: 1})
	answerAll(t, peer, 2, 3)
	answerFlush(t, peer, 2)
	wantNoErrors(t, first, 2)
	wantUnsure(t, j, <-errs, 3)
}

// TestManyGoroutinesWaitUntilStable has goroutines wait for commits and for flights, and read.
func TestManyGoroutinesWaitUntilStable(t *testing.T) {
	j := dial(t)
	first, errs := commits(t, j), make(chan error, inFlights)
	for i := 0; i < inFlights; i++ {
		go func(i int) { errs <- commitOften(j, i) }(i)
	}
	wantNoErrors(t, errs, inFlights)
	if found := commits(t, j); found != first+inFlights*movesEach {
		t.Errorf("%d commits", found-first)
	}
}

// commitOften commits so that each commit comes after the one before it.
func commitOften(j *Journal, i int) error {
	last, flights := uint64(0), []*Flight{}
	for n := 0; n < movesEach; n++ {
		tx := j.Begin()
		tx.Write(Address{526, 1024 * uint32(i%8)}, valueOf(uint64(n)))
		if i%4 == 0 && n%8 != 7 {
			flights = append(flights, tx.Submit(Stable))
			continue
		}
		if i%4 == 1 && n%16 == 0 {
			time.Sleep(time.Millisecond)
		}
		if i%4 == 2 && n%16 == 0 {
			if _, err := j.Read(Address{526, 0}); err != nil {
				return err
			}
		}
		receipt, err := tx.Commit(Durability(n%32 != 31))
		if err != nil || receipt.Commits <= last {
			return fmt.Errorf("a commit after %d: %v %w", last, receipt, err)
		}
		last = receipt.Commits
	}
	for _, each := range flights {
		if _, err := each.Wait(); err != nil {
			return err
		}
	}
	return nil
}

// TestALossOfCommitsThatWait wants each goroutine to be told, those too that were held back.
func TestALossOfCommitsThatWait(t *testing.T) {
	j, peer := heldPort(t)
	errs := make(chan error, 1+held)
	commitLater(t, j, Stable, errs)
	wantPiece(t, peer, piece{waiting: 1})
	for i := 0; i < held; i++ {
		commitLater(t, j, Stable, errs)
	}
	peer.Close()
	for i := 0; i < 1+held; i++ {
		wantError(t, "a commit that was lost", <-errs, ErrLost)
	}
}

// TestALossBeforeTheFlush wants goroutines to be told whose commits were answered, and whose flush
// was not. Nobody was told of the commits, so no restart is told either.
func TestALossBeforeTheFlush(t *testing.T) {
	j, peer := heldPort(t)
	errs := make(chan error, 1+held)
	commitLater(t, j, Stable, errs)
	wantPiece(t, peer, piece{waiting: 1})
	for i := 0; i < held; i++ {
		commitLater(t, j, Stable, errs)
	}
	answerAll(t, peer, 1, 1)
	wantNoErrors(t, errs, 1)
	wantPiece(t, peer, piece{others: held, flushes: 1})
	answerAll(t, peer, 2, 1+held)
	wantNobodyTold(t, errs)
	peer.Close()
	for i := 0; i < held; i++ {
		wantError(t, "a commit without a flush", <-errs, ErrLost)
	}
	if told := &j.promises; told.told > told.stable {
		t.Errorf("%d commits are told, and %d stable", told.told, told.stable)
	}
}
