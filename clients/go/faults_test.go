package jnl

import (
	"errors"
	"fmt"
	"io/fs"
	"os"
	"strings"
	"syscall"
	"testing"
	"time"
)

// The tests of this file are against a port with faults: JNL_FAULTY_SOCKET names the socket of
// clients/tests/faulty_port.py, which lists the faults.

func dialFaulty(t *testing.T) *Journal {
	t.Helper()
	path := os.Getenv("JNL_FAULTY_SOCKET")
	if path == "" {
		t.Skip("JNL_FAULTY_SOCKET names no socket")
	}
	return dialOrFail(t, path)
}

func setBit(j *Journal, bit uint32) error {
	tx := j.Begin()
	tx.Write(Address{514, bit}, []byte{1})
	_, err := tx.Commit(Lazy)
	if bit == 0 || bit == 13 {
		// The port ends the connection behind its answer.
		time.Sleep(200 * time.Millisecond)
	}
	return err
}

func commits(t *testing.T, j *Journal) uint64 {
	t.Helper()
	stat, err := j.Stat()
	if err != nil {
		t.Fatalf("the next call: %v", err)
	}
	return stat.Commits
}

func TestEachFaultIsTold(t *testing.T) {
	j := dialFaulty(t)
	unsure := &Unsure{}
	for _, row := range []struct {
		bit  uint32
		want error
		more uint64
	}{
		{0, nil, 1}, {1, ErrLost, 1}, {2, ErrLost, 0}, {3, ErrLost, 1}, {4, ErrProtocol, 1},
		{5, ErrProtocol, 1}, {6, ErrProtocol, 1}, {7, Fenced, 0}, {9, ErrProtocol, 1}, {11, nil, 1},
		{12, nil, 1},
	} {
		before := commits(t, j)
		if err := setBit(j, row.bit); !errors.Is(err, row.want) {
			t.Errorf("bit %d: %v, not %v", row.bit, err, row.want)
		}
		if found := commits(t, j) - before; found != row.more {
			t.Errorf("bit %d: %d commits, not %d", row.bit, found, row.more)
		}
	}
	before := commits(t, j)
	if err := setBit(j, 8); !errors.As(err, &unsure) || unsure.Receipt.Commits != before+1 {
		t.Errorf("unsure: %v %v", err, unsure)
	}
}

func TestAnAnswerThatNobodyAskedForEndsTheConnection(t *testing.T) {
	j := dialFaulty(t)
	over := j.connection.Load()
	if err := setBit(j, 12); err != nil {
		t.Fatal(err)
	}
	commits(t, j)
	if j.connection.Load() == over {
		t.Error("the connection is the same")
	}
}

func TestRunTriesAgainOnlyAtConflicts(t *testing.T) {
	j := dialFaulty(t)
	for _, row := range []struct {
		bit   uint32
		want  error
		times int
	}{{1, ErrLost, 1}, {10, nil, 4}} {
		before, times := commits(t, j), 0
		_, err := j.Run(Stable, func(tx *Tx) error {
			times++
			tx.Write(Address{514, row.bit}, []byte{1})
			return nil
		})
		if !errors.Is(err, row.want) || times != row.times || commits(t, j) != before+1 {
			t.Errorf("bit %d: %v after %d runs", row.bit, err, times)
		}
	}
}

var errOfWork = errors.New("not as it should be")

// failAfter runs work that reads objects, one by one or all at once, waits and fails. It returns
// what Run returns, and how often the work was run.
func failAfter(j *Journal, atOnce bool, reads ...Address) (err error, times int) {
	_, err = j.Run(Lazy, func(tx *Tx) error {
		times++
		if atOnce {
			if _, err := tx.ReadMany(reads...); err != nil {
				return err
			}
		}
		for _, a := range reads {
			if _, err := tx.Read(a); err != nil {
				return fmt.Errorf("within the work: %w", err)
			}
			if a == (Address{514, 32}) {
				// The port ends the connection behind its answer.
				time.Sleep(200 * time.Millisecond)
			}
		}
		return errOfWork
	})
	return err, times
}

func TestErrorsOfWork(t *testing.T) {
	j, before := dialFaulty(t), uint64(0)
	first, log := Address{514, 100}, Address{0, 0}
	for _, row := range []struct {
		what   string
		atOnce bool
		reads  []Address
		want   error
		times  int
		more   uint64
	}{
		{"what was read still holds", false, []Address{first, {514, 30}}, errOfWork, 3, 1},
		{"a refused address", false, []Address{first, {514, 30}, log}, BadAddress, 3, 1},
		{"no answer", false, []Address{first, {514, 31}}, ErrLost, 1, 0},
		{"no port", false, []Address{first, {514, 32}}, ErrNoPort, 1, 0},
		{"the session has ended", false, []Address{first, {514, 33}}, Fenced, 1, 0},
		{"one request", true, []Address{first, {514, 31}}, errOfWork, 1, 0},
		{"one object", false, []Address{{514, 31}}, errOfWork, 1, 0},
		{"the port has failed", false, []Address{first, {514, 31}, {514, 20}}, ErrProtocol, 1, 1},
	} {
		before = commits(t, j)
		if errors.Is(row.want, ErrProtocol) {
			if err := setBit(j, 20); err != nil {
				t.Fatal(err)
			}
		}
		err, times := failAfter(j, row.atOnce, row.reads...)
		if !errors.Is(err, row.want) || times != row.times {
			t.Errorf("%s: %v after %d runs", row.what, err, times)
		}
		if more := commits(t, j) - before; more != row.more {
			t.Errorf("%s: %d commits, not %d", row.what, more, row.more)
		}
	}
}

func TestARefusedCommitIsJudgedAsAnErrorOfWork(t *testing.T) {
	j, times := dialFaulty(t), 0
	before := commits(t, j)
	_, err := j.Run(Lazy, func(tx *Tx) error {
		times++
		tx.Write(Address{0, 0}, make([]byte, 4096))
		_, err := tx.Read(Address{514, 100})
		if err == nil {
			_, err = tx.Read(Address{514, 30})
		}
		return err
	})
	if !errors.Is(err, BadAddress) || times != 3 || commits(t, j) != before+1 {
		t.Errorf("a write to the log: %v after %d runs", err, times)
	}
}

func TestValuesThatAreNone(t *testing.T) {
	j := dialFaulty(t)
	for bit := uint32(20); bit < 23; bit++ {
		if err := setBit(j, bit); err != nil {
			t.Fatal(err)
		}
		if _, err := j.Read(Address{514, bit}); !errors.Is(err, ErrProtocol) {
			t.Errorf("bit %d: %v", bit, err)
		}
		if found, err := j.Read(Address{514, bit}); err != nil || found[0][0] != 1 {
			t.Errorf("bit %d: %v %v", bit, found, err)
		}
	}
}

func TestAnotherVersion(t *testing.T) {
	j := dialFaulty(t)
	if err := setBit(j, 13); err != nil {
		t.Fatal(err)
	}
	if _, err := j.Flush(); !errors.Is(err, ErrProtocol) {
		t.Errorf("another version: %v", err)
	}
	commits(t, j)
}

func TestNoAnswerInTime(t *testing.T) {
	j := dialFaulty(t)
	before := commits(t, j)
	j.Timeout = 200 * time.Millisecond
	if err := setBit(j, 14); !errors.Is(err, ErrLost) {
		t.Errorf("no answer: %v", err)
	}
	j.Timeout = 0
	if found := commits(t, j); found != before+1 {
		t.Errorf("%d commits, not %d", found, before+1)
	}
}

func TestALimitIsOfTheWholeCall(t *testing.T) {
	j, begin := dialFaulty(t), time.Now()
	j.Timeout = 500 * time.Millisecond
	err := setBit(j, 15)
	if !errors.Is(err, ErrLost) || !errors.Is(err, os.ErrDeadlineExceeded) {
		t.Errorf("an answer in pieces: %v", err)
	}
	if took := time.Since(begin); took > patience {
		t.Errorf("it took %v", took)
	}
}

func TestNoPort(t *testing.T) {
	for path, why := range map[string]error{
		"/nowhere/at/all":        fs.ErrNotExist,
		"/dev/null":              syscall.ECONNREFUSED,
		strings.Repeat("/a", 99): syscall.EINVAL,
	} {
		_, err := Dial("unix", path)
		if !errors.Is(err, ErrNoPort) || errors.Is(err, ErrLost) || !errors.Is(err, why) {
			t.Errorf("no port at %s: %v", path, err)
		}
	}
}

func TestNoPortInTime(t *testing.T) {
	dialFaulty(t)
	for _, kind := range []string{".silent", ".full"} {
		begin := time.Now()
		_, err := DialTimeout("unix", os.Getenv("JNL_FAULTY_SOCKET")+kind, 200*time.Millisecond)
		if !errors.Is(err, ErrNoPort) || !errors.Is(err, os.ErrDeadlineExceeded) {
			t.Errorf("%s: %v", kind, err)
		}
		if took := time.Since(begin); took < 200*time.Millisecond || took > patience {
			t.Errorf("%s: it took %v", kind, took)
		}
	}
}
