package jnl

import (
	"errors"
	"net"
	"os"
	"syscall"
	"time"
)

var errTimedOut = os.ErrDeadlineExceeded

// dialing is a connection that is being made, for all calls that wait for it.
type dialing struct {
	done chan struct{}
	err  error
}

// connected returns the connection, which is made first where there is none.
func (j *Journal) connected(deadline time.Time) (*connection, error) {
	for {
		if c := j.connection.Load(); c != nil {
			return c, nil
		}
		j.mu.Lock()
		if j.connection.Load() != nil {
			j.mu.Unlock()
			continue
		}
		attempt, isMine := j.dialing, j.dialing == nil
		if isMine {
			attempt = &dialing{done: make(chan struct{})}
			j.dialing = attempt
		}
		j.mu.Unlock()
		if err := j.await(attempt, isMine, deadline); err != nil {
			return nil, err
		}
	}
}

// await waits for a connection to be made, or makes it.
func (j *Journal) await(attempt *dialing, isMine bool, deadline time.Time) error {
	if isMine {
		made, disk, err := j.dial(deadline)
		hasLost := false
		j.mu.Lock()
		if err == nil {
			hasLost = j.promises.meet(disk)
			j.connection.Store(made)
		}
		j.dialing, attempt.err = nil, err
		j.mu.Unlock()
		close(attempt.done)
		if hasLost {
			return ErrRestarted
		}
		return err
	}
	var late <-chan time.Time
	if !deadline.IsZero() {
		timer := time.NewTimer(time.Until(deadline))
		defer timer.Stop()
		late = timer.C
	}
	select {
	case <-attempt.done:
		return attempt.err
	case <-late:
		return &failure{ErrNoPort, errTimedOut}
	}
}

// dial makes a connection and greets. Nothing was asked over it yet.
func (j *Journal) dial(deadline time.Time) (*connection, Disk, error) {
	socket, err := connect(j.network, j.address, deadline)
	if err != nil {
		return nil, Disk{}, &failure{ErrNoPort, err}
	}
	made, err := newConnection(socket, &j.untold, &j.promises)
	if err != nil {
		socket.Close()
		return nil, Disk{}, &failure{ErrNoPort, err}
	}
	disk, err := made.greet(version, deadline)
	if err == OtherVersion {
		disk, err = made.greet(firstVersion, deadline)
	}
	if err != nil {
		made.end(&failure{ErrLost, net.ErrClosed})
	}
	var lost *failure
	if errors.As(err, &lost) {
		err = &failure{ErrNoPort, lost.cause}
	}
	return made, disk, err
}

// greet greets in a version. It returns OtherVersion where that is not spoken, and the connection
// is as it was.
func (c *connection) greet(version uint32, deadline time.Time) (disk Disk, err error) {
	hello := newRequest(opHello, wordBytes).word(version)
	greeting := newCall(opHello, func(a *answer) { disk = a.disk(version) })
	if !c.ask(greeting, left(deadline), hello) {
		return disk, &failure{ErrNoPort, net.ErrClosed}
	}
	return disk, greeting.err
}

// left returns how long a call may still wait; 0 is for ever.
func left(deadline time.Time) time.Duration {
	if deadline.IsZero() {
		return 0
	}
	if left := time.Until(deadline); left > 0 {
		return left
	}
	return 1
}

// connect makes a connection. A socket has no room where many connect, but others are taken from
// there soon.
func connect(network, address string, deadline time.Time) (net.Conn, error) {
	dialer := net.Dialer{Deadline: deadline}
	for {
		conn, err := dialer.Dial(network, address)
		switch {
		case err == nil:
			return conn, nil
		case isOver(deadline):
			return nil, os.ErrDeadlineExceeded
		case !errors.Is(err, syscall.EAGAIN):
			return nil, err
		}
		time.Sleep(firstPause)
	}
}

// deadline returns when a call that begins now has waited enough; zero is never.
func (j *Journal) deadline() time.Time {
	if j.Timeout <= 0 {
		return time.Time{}
	}
	return time.Now().Add(j.Timeout)
}

func isOver(deadline time.Time) bool {
	return !deadline.IsZero() && time.Now().After(deadline)
}

// forget drops a connection that is of no more use.
func (j *Journal) forget(over *connection) {
	over.end(&failure{ErrLost, net.ErrClosed})
	j.connection.CompareAndSwap(over, nil)
}

// ask asks the port, and reads what stands behind the operation of its answer by decode.
func (j *Journal) ask(r request, decode func(*answer)) error {
	return j.askNoting(r, decode, nil)
}

// askNoting asks as ask does, and notes what the answer says of commits, where it was done.
func (j *Journal) askNoting(r request, decode func(*answer), note func()) error {
	mine := newCall(r.operation(), decode)
	mine.note = note
	err := j.askFor(mine, r)
	mine.decode, mine.note = nil, nil
	calls.Put(mine)
	return err
}

// askSecond asks what version 1 does not have.
func (j *Journal) askSecond(r request, decode func(*answer)) error {
	if _, err := j.connected(j.deadline()); err != nil {
		return err
	}
	if j.Disk().Version < version {
		return OtherVersion
	}
	return j.ask(r, decode)
}

// askFor asks the port. A connection that the port ended since the last call is made again first:
// nothing was sent yet, so nothing is sent twice.
func (j *Journal) askFor(mine *call, pieces ...[]byte) error {
	deadline := j.deadline()
	for {
		over, err := j.connected(deadline)
		if err != nil {
			return err
		}
		if over.ask(mine, left(deadline), pieces...) {
			return mine.err
		}
		j.forget(over)
	}
}
