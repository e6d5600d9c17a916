package jnl

import (
	"bytes"
	"errors"
	"fmt"
	"net"
	"os"
	"sync"
	"testing"
	"time"
)

// The tests of this file have many requests in flight over one connection.

const (
	many      = 10000
	before    = 20
	after     = 30
	freeBit   = 203
	inFlights = 64
	movesEach = 100
)

// submit submits a commit that writes an object.
func submit(j *Journal, a Address, value []byte) *Flight {
	tx := j.Begin()
	tx.Write(a, value)
	return tx.Submit(Lazy)
}

// end waits for a commit, but not for ever.
func end(t *testing.T, f *Flight) (Receipt, error) {
	t.Helper()
	watch := time.AfterFunc(time.Minute, func() { panic("port and client wait for each other") })
	defer watch.Stop()
	return f.Wait()
}

func TestAnswersComeInOrder(t *testing.T) {
	j := dial(t)
	first, flights := commits(t, j), []*Flight{}
	for i := uint64(0); i < many; i++ {
		flights = append(flights, submit(j, Address{526, 31744}, valueOf(i)))
	}
	for i, each := range flights {
		for again := 0; again < 2; again++ {
			if receipt, err := end(t, each); err != nil || receipt.Commits != first+uint64(i)+1 {
				t.Fatalf("%d: %v %v", i, receipt, err)
			}
		}
	}
	if found := readOne(t, j, Address{526, 31744}); !bytes.Equal(found, valueOf(many-1)) {
		t.Errorf("the last one: %v", found)
	}
}

func TestARefusalIsOfOneAlone(t *testing.T) {
	j := dial(t)
	late := j.Begin()
	if _, err := late.Read(Address{526, 28672}); err != nil {
		t.Fatal(err)
	}
	first := submit(j, Address{526, 28672}, valueOf(commits(t, j)+1))
	conflict, log := late.Submit(Lazy), submit(j, Address{3, 0}, nil)
	long := submit(j, Address{531, 0}, make([]byte, 5000))
	last := submit(j, Address{514, freeBit}, []byte{1})
	for i, row := range []struct {
		flight *Flight
		want   error
	}{{first, nil}, {conflict, Conflict}, {log, BadAddress}, {long, BadSize}, {last, nil}} {
		if _, err := end(t, row.flight); !errors.Is(err, row.want) {
			t.Errorf("%d: %v, not %v", i, err, row.want)
		}
	}
}

// TestOtherCallsSendWhatIsHeld wants a read to come after what was submitted before it.
func TestOtherCallsSendWhatIsHeld(t *testing.T) {
	j := dial(t)
	for i := uint64(1); i <= 40; i++ {
		flight := submit(j, Address{526, 27648}, valueOf(i))
		if found := readOne(t, j, Address{526, 27648}); !bytes.Equal(found, valueOf(i)) {
			t.Errorf("%d: %v", i, found)
		}
		if _, err := end(t, flight); err != nil {
			t.Error(err)
		}
	}
}

func TestManyGoroutinesCallAtOnce(t *testing.T) {
	j := dial(t)
	first, seen := commits(t, j), make([]bool, many)
	var all sync.WaitGroup
	var mu sync.Mutex
	for i := 0; i < many; i++ {
		all.Add(1)
		go func(i int) {
			defer all.Done()
			tx := j.Begin()
			tx.Write(Address{526, 30720}, valueOf(uint64(i)))
			receipt, err := tx.Commit(Durability(i%1000 == 0))
			mu.Lock()
			defer mu.Unlock()
			at := int(receipt.Commits - first - 1)
			if err != nil || at < 0 || at >= many || seen[at] {
				t.Errorf("%d: %v %v", i, receipt, err)
				return
			}
			seen[at] = true
		}(i)
	}
	all.Wait()
}

// TestGoroutinesMoveMoney moves money over one connection while its sum is read.
func TestGoroutinesMoveMoney(t *testing.T) {
	j, places := dial(t), []Address{}
	for i := uint32(0); i < accounts; i++ {
		places = append(places, Address{527, 1024 * i})
		if err := writeOne(j, places[i], valueOf(openedWith)); err != nil {
			t.Fatal(err)
		}
	}
	errs := make(chan error, inFlights)
	for i := 0; i < inFlights; i++ {
		go func(i int) { errs <- moveOften(j, places, i) }(i)
	}
	for i := 0; i < inFlights; i++ {
		if err := <-errs; err != nil {
			t.Error(err)
		}
	}
}

func moveOften(j *Journal, places []Address, i int) error {
	from, to := places[i%accounts], places[(i+1+i/accounts%7)%accounts]
	for n := 0; n < movesEach; n++ {
		values, err := j.Read(places...)
		if err != nil {
			return err
		}
		if sum := sumOf(values); sum != accounts*openedWith {
			return fmt.Errorf("a sum of %d", sum)
		}
		if err := moveOnce(j, from, to); err != nil && !errors.Is(err, Conflict) {
			return err
		}
	}
	return nil
}

func moveOnce(j *Journal, from, to Address) error {
	tx := j.Begin()
	values, err := tx.ReadMany(from, to)
	if err != nil {
		return err
	}
	tx.Write(from, valueOf(sumOf(values[:1])-1))
	tx.Write(to, valueOf(sumOf(values[1:])+1))
	_, err = tx.Commit(Lazy)
	return err
}

func sumOf(values [][]byte) uint64 {
	sum := uint64(0)
	for _, value := range values {
		for i := 7; i >= 0; i-- {
			sum += uint64(value[i]) << (8 * i)
		}
	}
	return sum
}

func TestLongRecordsInFlight(t *testing.T) {
	j, errs := dial(t), make(chan error, 40)
	for i := 0; i < 40; i++ {
		go func(i int) {
			tx := j.Begin()
			for b := uint64(0); b < 100; b++ {
				tx.Write(Address{540 + b, 0}, bytes.Repeat([]byte{byte(i + 1)}, maxValue))
			}
			_, err := tx.Commit(Lazy)
			errs <- err
		}(i)
	}
	for i := 0; i < 40; i++ {
		if err := <-errs; err != nil {
			t.Error(err)
		}
	}
	first, last := readOne(t, j, Address{540, 0}), readOne(t, j, Address{639, 0})
	if !bytes.Equal(first, last) {
		t.Errorf("blocks of two commits: %d %d", first[0], last[0])
	}
}

func TestALossIsToldOfEach(t *testing.T) {
	j := dialFaulty(t)
	unsure := &Unsure{}
	all := before + 1 + after
	for _, row := range []struct {
		bit         uint32
		met, later  error
		least, most int
	}{
		{0, nil, ErrLost, before + 1, before + 1},
		{1, ErrLost, ErrLost, before + 1, before + 1},
		{2, ErrLost, ErrLost, before, before},
		{3, ErrLost, ErrLost, before + 1, before + 1},
		{4, ErrProtocol, ErrLost, before + 1, all},
		{5, ErrProtocol, ErrLost, before + 1, all},
		{6, ErrProtocol, ErrLost, before + 1, all},
		{9, ErrProtocol, ErrLost, before + 1, all},
		{7, Fenced, Fenced, before, before},
		{8, unsure, nil, all, all},
		{11, nil, nil, all, all},
	} {
		first, flights := commits(t, j), []*Flight{}
		for i := 0; i < all; i++ {
			bit := uint32(freeBit)
			if i == before {
				bit = row.bit
			}
			flights = append(flights, submit(j, Address{514, bit}, []byte{1}))
		}
		for i, each := range flights {
			_, err := end(t, each)
			wantEnd(t, fmt.Sprintf("bit %d, commit %d", row.bit, i), err, i, row.met, row.later)
			if row.later == ErrLost && i > before && i < all-1 {
				nothingIsSent(t, j)
			}
		}
		if done := int(commitsAtRest(t, j) - first); done < row.least || done > row.most {
			t.Errorf("bit %d: %d commits", row.bit, done)
		}
	}
}

// commitsAtRest returns the commits once a connection that this client has closed has none under
// way any more.
func commitsAtRest(t *testing.T, j *Journal) uint64 {
	t.Helper()
	last, same := commits(t, j), 0
	for same < 3 {
		time.Sleep(20 * time.Millisecond)
		now := commits(t, j)
		if now == last {
			same++
		} else {
			same = 0
		}
		last = now
	}
	return last
}

// nothingIsSent wants a flight to be lost while others that were lost are not waited for.
func nothingIsSent(t *testing.T, j *Journal) {
	t.Helper()
	if _, err := end(t, submit(j, Address{514, freeBit}, []byte{1})); !errors.Is(err, ErrLost) {
		t.Errorf("a commit after a loss: %v", err)
	}
}

// wantEnd wants a commit to end as its place before, at or after a fault has it.
func wantEnd(t *testing.T, what string, found error, at int, met, later error) {
	t.Helper()
	want := []error{nil, met, later}[boolToInt(at >= before)+boolToInt(at > before)]
	var unsure *Unsure
	isAsWanted := errors.Is(found, want)
	if errors.As(want, &unsure) {
		isAsWanted = errors.As(found, &unsure)
	}
	if want == ErrLost && errors.Is(found, ErrProtocol) {
		isAsWanted = false
	}
	if !isAsWanted {
		t.Errorf("%s: %v, not %v", what, found, want)
	}
}

func boolToInt(b bool) int {
	if b {
		return 1
	}
	return 0
}

func TestALossWhileMoreIsSent(t *testing.T) {
	j := dialFaulty(t)
	first, flights := commits(t, j), []*Flight{}
	for i := 0; i < many; i++ {
		bit := uint32(freeBit)
		if i == 1 {
			bit = 1
		}
		flights = append(flights, submit(j, Address{514, bit}, []byte{1}))
	}
	for i, each := range flights {
		if _, err := end(t, each); i == 0 && err != nil || i > 0 && !errors.Is(err, ErrLost) {
			t.Fatalf("%d: %v", i, err)
		}
	}
	if found := commits(t, j); found != first+2 {
		t.Errorf("%d commits, not 2", found-first)
	}
}

// TestALossWhileASubmitWaits wants a commit to be lost whose Submit waits for the socket meanwhile.
func TestALossWhileASubmitWaits(t *testing.T) {
	j := dialFaulty(t)
	// The port reads nothing while it answers this one.
	flights := []*Flight{submit(j, Address{514, 15}, []byte{1})}
	pushHeld(j.connection.Load())
	time.AfterFunc(500*time.Millisecond, func() { j.Close() })
	for i := 0; i < many/10; i++ {
		flights = append(flights, submit(j, Address{540, 0}, make([]byte, maxValue)))
	}
	for i, each := range flights {
		if _, err := end(t, each); !errors.Is(err, ErrLost) {
			t.Errorf("%d: %v", i, err)
		}
	}
	commits(t, j)
}

// TestALimitEndsAllInFlight wants each call to end after the limit of time.
func TestALimitEndsAllInFlight(t *testing.T) {
	j := dialFaulty(t)
	j.Timeout = time.Second
	errs, began := make(chan error, inFlights), time.Now()
	for i := 0; i < inFlights; i++ {
		go func() { errs <- setBit(j, 14) }()
	}
	for i := 0; i < inFlights; i++ {
		if err := <-errs; !errors.Is(err, ErrLost) || !errors.Is(err, os.ErrDeadlineExceeded) {
			t.Errorf("%v", err)
		}
	}
	if took := time.Since(began); took > patience {
		t.Errorf("%v", took)
	}
	j.Timeout = 0
	commits(t, j)
}

func TestCloseEndsAllInFlight(t *testing.T) {
	j, errs := dialFaulty(t), make(chan error, 1)
	go func() { errs <- setBit(j, 14) }()
	for isWaiting := false; !isWaiting; time.Sleep(time.Millisecond) {
		over, err := j.connected(time.Time{})
		if err != nil {
			t.Fatal(err)
		}
		over.mu.Lock()
		isWaiting = over.calls.len() > 0 && len(over.held) == 0
		over.mu.Unlock()
	}
	j.Close()
	if err := <-errs; !errors.Is(err, ErrLost) {
		t.Errorf("%v", err)
	}
	commits(t, j)
}

// TestAnEndIsFoundBeforeASubmit wants a commit to go over a new connection where the port has ended
// the one before, and nobody has read that yet, nor the answers before it.
func TestAnEndIsFoundBeforeASubmit(t *testing.T) {
	j, flights := dialFaulty(t), []*Flight{}
	over := j.connection.Load()
	for _, bit := range []uint32{freeBit, 0} {
		flights = append(flights, submit(j, Address{514, bit}, []byte{1}))
	}
	pushHeld(over)
	time.Sleep(200 * time.Millisecond)
	for i, each := range append(flights, submit(j, Address{514, freeBit}, []byte{1})) {
		if _, err := end(t, each); err != nil {
			t.Errorf("%d: %v", i, err)
		}
	}
	if j.connection.Load() == over {
		t.Error("the connection is the same")
	}
}

// TestAnEndIsFoundBeforeACall wants a call to go over a new connection, though a flight is held for
// the one that has ended.
func TestAnEndIsFoundBeforeACall(t *testing.T) {
	j := dial(t)
	flight := submit(j, Address{514, freeBit}, []byte{1})
	if err := j.connection.Load().socket.(*net.UnixConn).CloseRead(); err != nil {
		t.Fatal(err)
	}
	commits(t, j)
	if _, err := end(t, flight); !errors.Is(err, ErrLost) {
		t.Errorf("%v", err)
	}
}

// TestATxIsUsedAgain wants a flight to be as its Tx was when it was submitted.
func TestATxIsUsedAgain(t *testing.T) {
	j, first, flights := dial(t), Address{526, 26624}, []*Flight{}
	tx := j.Begin()
	for i := uint64(0); i < inFlights; i++ {
		tx.Reset()
		if _, err := tx.Read(Address{526, 24576}); err != nil {
			t.Fatal(err)
		}
		tx.Write(first, valueOf(i))
		tx.Write(Address{527, 1024 * uint32(8+i%16)}, valueOf(i))
		flights = append(flights, tx.Submit(Durability(i%16 == 0)))
	}
	for i, each := range flights {
		if _, err := end(t, each); err != nil {
			t.Errorf("%d: %v", i, err)
		}
	}
	for i := uint64(inFlights - 16); i < inFlights; i++ {
		if found := readOne(t, j, Address{527, 1024 * uint32(8+i%16)}); !bytes.Equal(found, valueOf(i)) {
			t.Errorf("%d: %v", i, found)
		}
	}
	if tx.Reset(); len(tx.reads.list)+len(tx.writes.list) > 0 {
		t.Error("a Tx that began anew has objects")
	}
}

// TestManyGoroutinesWaitForFlights has goroutines wait for flights of others, in no order.
func TestManyGoroutinesWaitForFlights(t *testing.T) {
	j, errs := dial(t), make(chan error, 4*inFlights)
	for i := 0; i < 4*inFlights; i++ {
		flight := submit(j, Address{526, 25600}, valueOf(uint64(i)))
		go func() {
			_, err := end(t, flight)
			errs <- err
		}()
	}
	for i := 0; i < 4*inFlights; i++ {
		if err := <-errs; err != nil {
			t.Error(err)
		}
	}
}
