package jnl

import (
	"bytes"
	"encoding/binary"
	"errors"
	"fmt"
	"math/rand"
	"os"
	"sync"
	"testing"
	"time"
)

// The tests of this file are against a running port: JNL_SOCKET names its socket, and
// JNL_TCP_PORT its TCP port, if it has one.

const (
	accounts   = 8
	openedWith = 100
)

func dialOrFail(t *testing.T, path string) *Journal {
	t.Helper()
	j, err := Dial("unix", path)
	if err != nil {
		t.Fatal(err)
	}
	t.Cleanup(func() { j.Close() })
	return j
}

func dial(t *testing.T) *Journal {
	t.Helper()
	path := os.Getenv("JNL_SOCKET")
	if path == "" {
		t.Skip("JNL_SOCKET names no socket")
	}
	return dialOrFail(t, path)
}

func account(i uint32) Address {
	return Address{525, 1024 * i}
}

func valueOf(n uint64) []byte {
	value := make([]byte, 128)
	binary.LittleEndian.PutUint64(value, n)
	return value
}

func writeOne(j *Journal, a Address, value []byte) error {
	_, err := j.Run(Lazy, func(tx *Tx) error {
		tx.Write(a, value)
		return nil
	})
	return err
}

func readOne(t *testing.T, j *Journal, a Address) []byte {
	t.Helper()
	found, err := j.Read(a)
	if err != nil {
		t.Fatal(err)
	}
	return found[0]
}

func TestAValueIsReadAsItWasWritten(t *testing.T) {
	j := dial(t)
	block := bytes.Repeat([]byte{1, 2, 3, 4}, 1024)
	tx := j.Begin()
	tx.Write(Address{534, 0}, block)
	tx.Write(Address{514, 6}, []byte{1})
	tx.Write(Address{526, 1024}, valueOf(7))
	own, err := tx.Read(Address{526, 1024})
	if err != nil || !bytes.Equal(own, valueOf(7)) {
		t.Errorf("its own: %v %v", own, err)
	}
	receipt, err := tx.Commit(Stable)
	if err != nil {
		t.Fatal(err)
	}
	found, err := j.Read(Address{534, 0}, Address{514, 6}, Address{526, 1024})
	for i, want := range [][]byte{block, {1}, valueOf(7)} {
		if err != nil || !bytes.Equal(found[i], want) {
			t.Errorf("object %d: %v %v", i, found, err)
		}
	}
	if stat, err := j.Stat(); err != nil || stat.Stable < receipt.Commits {
		t.Errorf("stat: %v %v", stat, err)
	}
}

func TestTheLastWriteCounts(t *testing.T) {
	j, places := dial(t), []Address{{526, 21504}, {526, 22528}, {526, 23552}}
	tx := j.Begin()
	for _, size := range []int{128, 5, 7, 128} {
		for i, place := range places {
			tx.Write(place, bytes.Repeat([]byte{byte(size + i)}, size))
		}
		for i, place := range places {
			own, err := tx.Read(place)
			if want := bytes.Repeat([]byte{byte(size + i)}, size); err != nil || !bytes.Equal(own, want) {
				t.Errorf("object %d of %d bytes: %v %v", i, size, own, err)
			}
		}
	}
	tx.Write(places[1], valueOf(9))
	if _, err := tx.Commit(Lazy); err != nil {
		t.Fatal(err)
	}
	first, last := bytes.Repeat([]byte{128}, 128), bytes.Repeat([]byte{130}, 128)
	found, err := j.Read(places...)
	for i, want := range [][]byte{first, valueOf(9), last} {
		if err != nil || !bytes.Equal(found[i], want) {
			t.Errorf("object %d: %v %v", i, found, err)
		}
	}
}

func TestManyAreReadAtOnce(t *testing.T) {
	j, one, other, written := dial(t), Address{526, 4096}, Address{526, 5120}, Address{526, 6144}
	if err := writeOne(j, one, valueOf(1)); err != nil {
		t.Fatal(err)
	}
	tx := j.Begin()
	tx.Write(written, valueOf(3))
	if found, err := tx.ReadMany(); len(found) != 0 || err != nil {
		t.Errorf("no objects: %v %v", found, err)
	}
	if _, err := tx.ReadMany(one, Address{3, 0}); !errors.Is(err, BadAddress) {
		t.Errorf("a block of the log: %v", err)
	}
	found, err := tx.ReadMany(other, one, written, one)
	for i, want := range [][]byte{readOne(t, j, other), valueOf(1), valueOf(3), valueOf(1)} {
		if err != nil || !bytes.Equal(found[i], want) {
			t.Errorf("object %d: %v %v", i, found, err)
		}
	}
	if err := writeOne(j, one, valueOf(2)); err != nil {
		t.Fatal(err)
	}
	if again, err := tx.ReadMany(one); err != nil || !bytes.Equal(again[0], valueOf(1)) {
		t.Errorf("what was read before: %v %v", again, err)
	}
	if _, err := tx.Commit(Lazy); !errors.Is(err, Conflict) {
		t.Errorf("a commit that read many: %v", err)
	}
}

func TestAConflictChangesNothing(t *testing.T) {
	j, place := dial(t), Address{526, 2048}
	late := j.Begin()
	found, err := late.Read(place)
	if err != nil {
		t.Fatal(err)
	}
	found[0]++
	if err := writeOne(j, place, found); err != nil {
		t.Fatal(err)
	}
	late.Write(place, valueOf(99))
	if _, err := late.Commit(Lazy); !errors.Is(err, Conflict) {
		t.Errorf("a late commit: %v", err)
	}
	if now := readOne(t, j, place); !bytes.Equal(now, found) {
		t.Errorf("after it: %v", now)
	}
}

func TestRunReturnsItsReceipt(t *testing.T) {
	j := dial(t)
	receipt, err := j.Run(Stable, func(tx *Tx) error {
		tx.Write(Address{526, 7168}, valueOf(1))
		return nil
	})
	stat, faultOfStat := j.Stat()
	if err != nil || faultOfStat != nil || receipt.Commits == 0 || receipt.Commits > stat.Stable {
		t.Errorf("a run: %v %v, then %v %v", receipt, err, stat, faultOfStat)
	}
}

func TestRefusals(t *testing.T) {
	j := dial(t)
	for _, row := range []struct {
		address Address
		value   []byte
		want    Refusal
	}{
		{Address{3, 0}, make([]byte, 4096), BadAddress},
		{Address{514, 0}, []byte{2}, BadSize},
		{Address{515, 1024}, make([]byte, 127), BadSize},
	} {
		err := writeOne(j, row.address, row.value)
		var object *ObjectRefusal
		if !errors.Is(err, row.want) || !errors.As(err, &object) || object.Address != row.address {
			t.Errorf("%v: %v, not %v", row.address, err, row.want)
		}
	}
}

// commitOf returns what a commit of objects of one value is answered.
func commitOf(j *Journal, addresses []Address, value []byte) error {
	tx := j.Begin()
	for _, a := range addresses {
		tx.Write(a, value)
	}
	_, err := tx.Commit(Lazy)
	return err
}

func TestWhatNoRecordHolds(t *testing.T) {
	j := dial(t)
	many, blocks := make([]Address, 4097), make([]Address, 512)
	for i := range many {
		many[i] = Address{514, 8192 + uint32(i)}
	}
	for i := range blocks {
		blocks[i] = Address{531 + uint64(i), 0}
	}
	before, err := j.Stat()
	if err != nil {
		t.Fatal(err)
	}
	_, err = j.Read(many[:257]...)
	_, ofMany := j.Begin().ReadMany(many[:257]...)
	for _, err := range []error{err, ofMany, commitOf(j, many, []byte{1}),
		commitOf(j, blocks, make([]byte, 4096))} {
		if !errors.Is(err, TooLarge) {
			t.Errorf("too many: %v", err)
		}
	}
	var long *ObjectRefusal
	err = commitOf(j, blocks[:1], make([]byte, 4097))
	if !errors.As(err, &long) || *long != (ObjectRefusal{BadSize, blocks[0]}) {
		t.Errorf("a value of 4097 bytes: %v", err)
	}
	if after, err := j.Stat(); err != nil || after.Commits != before.Commits {
		t.Errorf("commits: %v %v, before %v", after, err, before)
	}
	if found, err := j.Read(many[:256]...); err != nil || len(found) != 256 {
		t.Errorf("a read of 256: %d %v", len(found), err)
	}
}

func TestTCP(t *testing.T) {
	port, place := os.Getenv("JNL_TCP_PORT"), Address{527, 0}
	if port == "" {
		t.Skip("JNL_TCP_PORT names no port")
	}
	byTCP, err := Dial("tcp", "127.0.0.1:"+port)
	if err != nil {
		t.Fatal(err)
	}
	defer byTCP.Close()
	if err := writeOne(byTCP, place, valueOf(3)); err != nil {
		t.Fatal(err)
	}
	if found := readOne(t, dial(t), place); !bytes.Equal(found, valueOf(3)) {
		t.Errorf("after a commit by TCP: %v", found)
	}
	if err := byTCP.Stop(); !errors.Is(err, Forbidden) {
		t.Errorf("a stop by TCP: %v", err)
	}
}

func TestWorkThatGivesUpChangesNothing(t *testing.T) {
	j, place, givesUp := dial(t), Address{526, 3072}, errors.New("gives up")
	before := readOne(t, j, place)
	_, err := j.Run(Stable, func(tx *Tx) error {
		for _, a := range []Address{place, {526, 4096}} {
			if _, err := tx.Read(a); err != nil {
				return err
			}
		}
		tx.Write(place, valueOf(99))
		return givesUp
	})
	if err != givesUp || !bytes.Equal(readOne(t, j, place), before) {
		t.Errorf("work that gives up: %v", err)
	}
}

func transfer(tx *Tx, from, to Address) error {
	a, err := tx.Read(from)
	if err != nil {
		return err
	}
	b, err := tx.Read(to)
	if err != nil {
		return err
	}
	if from != to && a[0] > 0 {
		a[0]--
		b[0]++
		tx.Write(from, a)
		tx.Write(to, b)
	}
	return nil
}

func TestTransfersKeepTheSum(t *testing.T) {
	j := dial(t)
	for i := uint32(0); i < accounts; i++ {
		if err := writeOne(j, account(i), valueOf(openedWith)); err != nil {
			t.Fatal(err)
		}
	}
	var group sync.WaitGroup
	for seed := uint32(0); seed < 4; seed++ {
		group.Add(1)
		go func(seed uint32, own *Journal) {
			defer group.Done()
			for i := uint32(0); i < 50; i++ {
				from, to := account((seed+i)%accounts), account((seed+3*i+1)%accounts)
				if _, err := own.Run(Lazy, func(tx *Tx) error { return transfer(tx, from, to) }); err != nil {
					t.Error(err)
				}
			}
		}(seed, dial(t))
	}
	group.Wait()
	sum := 0
	for i := uint32(0); i < accounts; i++ {
		sum += int(readOne(t, j, account(i))[0])
	}
	if sum != accounts*openedWith {
		t.Errorf("the sum is %d", sum)
	}
	if _, err := j.Flush(); err != nil {
		t.Error(err)
	}
}

// move moves some of the sum of two objects again and again, until it is told to end.
func move(j *Journal, places [2]Address, isOver <-chan struct{}) error {
	for {
		select {
		case <-isOver:
			return nil
		case <-time.After(500 * time.Microsecond):
		}
		_, err := j.Run(Lazy, func(tx *Tx) error {
			values, err := tx.ReadMany(places[:]...)
			if err != nil {
				return err
			}
			step := byte(rand.Intn(int(values[0][0]) + 1))
			if values[0][0] == 0 {
				step = -values[1][0]
			}
			tx.Write(places[0], valueOf(uint64(values[0][0]-step)))
			tx.Write(places[1], valueOf(uint64(values[1][0]+step)))
			return nil
		})
		if err != nil {
			return err
		}
	}
}

func TestRunReturnsNoErrorThatTwoMomentsCaused(t *testing.T) {
	j, places := dial(t), [2]Address{{527, 2048}, {527, 3072}}
	for _, place := range places {
		if err := writeOne(j, place, valueOf(50)); err != nil {
			t.Fatal(err)
		}
	}
	var group sync.WaitGroup
	isOver, ends := make(chan struct{}), time.Now().Add(30*time.Second)
	for i := 0; i < 2; i++ {
		group.Add(1)
		go func(own *Journal) {
			defer group.Done()
			if err := move(own, places, isOver); err != nil {
				t.Error(err)
			}
		}(dial(t))
	}
	wantTheSum := func(tx *Tx) error {
		a, err := tx.Read(places[0])
		if err != nil {
			return err
		}
		b, err := tx.Read(places[1])
		if err == nil && a[0]+b[0] != 100 {
			err = fmt.Errorf("%d + %d", a[0], b[0])
		}
		return err
	}
	runs := 0
	for ; runs < 5000 && time.Now().Before(ends); runs++ {
		if _, err := j.Run(Lazy, wantTheSum); err != nil {
			t.Errorf("run %d: %v", runs, err)
		}
	}
	t.Logf("%d runs", runs)
	close(isOver)
	group.Wait()
}
