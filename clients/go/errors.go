package jnl

import (
	"errors"
	"fmt"
)

// Refusal is a reason for which nothing was done, and nothing will be. It is the protocol's number.
//
// What no record can hold is refused before anything is sent: by BadSize a value of more than 4096
// bytes, and by TooLarge a read of more than 256 objects, and a commit of more than 4096 parts or
// 2 MiB.
type Refusal uint32

const (
	NoMemory     Refusal = 1
	BadAddress   Refusal = 2
	BadSize      Refusal = 3
	TooLarge     Refusal = 4
	DeviceFailed Refusal = 6
	// Stale, Stranger, Worn and Fenced: the session has ended; the next call begins another.
	Stale            Refusal = 9
	Stranger         Refusal = 10
	Worn             Refusal = 11
	Closed           Refusal = 13
	Fenced           Refusal = 14
	Conflict         Refusal = 64
	UnknownOperation Refusal = 66
	Malformed        Refusal = 67
	TooLong          Refusal = 68
	OtherVersion     Refusal = 69
	Forbidden        Refusal = 70
	ReadOnly         Refusal = 71

	statusUnsure Refusal = 65
)

var reasons = map[Refusal]string{
	NoMemory:         "memory was refused",
	BadAddress:       "an address names no object",
	BadSize:          "a value's length is not its object's, or a bit's byte exceeds 1",
	TooLarge:         "too many blocks, parts or objects",
	DeviceFailed:     "the disk failed",
	Stale:            "the session has ended",
	Stranger:         "the session has ended",
	Worn:             "the session has ended",
	Closed:           "the journal was stopped",
	Fenced:           "the session has ended",
	Conflict:         "a value that was read is another now",
	UnknownOperation: "no operation has the request's number",
	Malformed:        "the record is spelled as no request",
	TooLong:          "the record is too long",
	OtherVersion:     "the port's version of the protocol is another, and lacks the call",
	Forbidden:        "this connection may not end the service",
	ReadOnly:         "the service only reads the disk",
}

func (r Refusal) Error() string {
	return fmt.Sprintf("jnl: refused by %d: %s", uint32(r), reasons[r])
}

// ObjectRefusal is a Refusal of one object, by BadAddress or BadSize, that the client has found.
// errors.Is finds the Refusal in it. A port that refuses an object itself does not say which, so
// that is the Refusal alone.
type ObjectRefusal struct {
	Refusal Refusal
	Address Address
}

func (r *ObjectRefusal) Error() string {
	return fmt.Sprintf("%v: block %d, bit %d", r.Refusal, r.Address.Block, r.Address.Bit)
}

func (r *ObjectRefusal) Unwrap() error {
	return r.Refusal
}

func (r Refusal) endsSession() bool {
	return r == Stale || r == Stranger || r == Worn || r == Fenced
}

// Unsure says that the transaction stands, and is not known to be stable: a crash may take it back,
// whole.
type Unsure struct {
	Receipt Receipt
}

func (*Unsure) Error() string {
	return "jnl: the transaction is not known to be stable"
}

var (
	// ErrNoPort says that no port answers. Nothing was done. errors.Is tells why too, as by
	// fs.ErrNotExist, fs.ErrPermission and os.ErrDeadlineExceeded.
	ErrNoPort = errors.New("jnl: no port answers")
	// ErrLost says that no answer came. A commit was done whole, or not at all: read to find out.
	// Nothing sends it again but the caller. The next call makes a new connection. errors.Is tells
	// why too, as by os.ErrDeadlineExceeded.
	ErrLost = errors.New("jnl: no answer came")
	// ErrRestarted says that the service was started again, and commits of this Journal may be gone:
	// those that did not wait, and that no Flush, Stat or commit that waited had told to be stable.
	// Nothing was sent. One call returns it, the first after that which would send something. Later
	// ones go on.
	ErrRestarted = errors.New(
		"jnl: the service was started again; commits that did not wait may be gone")
	// ErrNoneFree says that no record of a Pool is free. Nothing was done.
	ErrNoneFree = errors.New("jnl: no record is free")
	// ErrProtocol says that the port answered what the protocol does not have. It is an ErrLost too.
	ErrProtocol = fmt.Errorf("%w that the protocol has", ErrLost)
)

// failure is ErrNoPort or ErrLost, with what has caused it.
type failure struct {
	what, cause error
}

func (f *failure) Error() string {
	return f.what.Error() + ": " + f.cause.Error()
}

func (f *failure) Is(target error) bool {
	return f.what == target
}

func (f *failure) Unwrap() error {
	return f.cause
}

// saysThatThePortFailed tells an error of the port, and a conflict, from an error of the work and
// from a refusal of what the work asked for. Reads of two moments may have caused the latter two.
func saysThatThePortFailed(err error) bool {
	var refusal Refusal
	var unsure *Unsure
	if errors.As(err, &refusal) {
		return refusal != BadAddress && refusal != BadSize && refusal != TooLarge
	}
	return errors.Is(err, ErrLost) || errors.Is(err, ErrNoPort) || errors.Is(err, ErrRestarted) ||
		errors.As(err, &unsure)
}
