use crate::{Address, Receipt};
use std::{error, fmt, io};

/// Why a call did not end well.
#[derive(Debug)]
pub enum Error {
    /// Nothing was done, and nothing will be, for this reason.
    Refused(Refusal),
    /// Nothing was done: the client has refused the object at this address, by
    /// [`Refusal::BadAddress`] or [`Refusal::BadSize`]. A port that refuses one itself does not say
    /// which, so that is [`Error::Refused`].
    RefusedObject(Refusal, Address),
    /// Nothing was done, because a value that was read is another now.
    Conflict,
    /// No port answers. Nothing was done.
    NoPort(io::Error),
    /// The transaction stands, and is not known to be stable: a crash may take it back, whole.
    Unsure(Receipt),
    /// No answer came. A commit was done whole, or not at all: read to find out. Nothing sends it
    /// again but the caller. The next call makes a new connection.
    Lost(io::Error),
    /// The port answered what the protocol does not have. What [`Error::Lost`] says holds.
    Protocol(&'static str),
    /// The service was started again, and commits of this connection may be gone: those that did not
    /// wait, and that no flush, stat or waiting commit had told to be stable. Nothing was sent. It
    /// is answered once, by the first call after that which would send something. The next one goes
    /// on.
    Restarted,
    /// No record of a [`Pool`](crate::Pool) is free. Nothing was done.
    NoneFree,
    /// [`MAX_IN_FLIGHT`](crate::MAX_IN_FLIGHT) commits are in flight. Nothing was done.
    Full,
}

/// A reason for which nothing was done. Each has the protocol's number.
///
/// What no record can hold is refused before anything is sent: by [`Refusal::BadSize`] a value of
/// more than 4096 bytes, and by [`Refusal::TooLarge`] a read of more than 256 objects, and a commit
/// of more than 4096 parts or 2 MiB.
#[derive(Clone, Copy, Debug, PartialEq, Eq)]
#[allow(missing_docs)]
pub enum Refusal {
    NoMemory = 1,
    BadAddress = 2,
    BadSize = 3,
    /// More than 128 distinct blocks are written, or more than a record can hold.
    TooLarge = 4,
    DeviceFailed = 6,
    /// This one, the next two and `Fenced`: the session has ended; the next call begins another.
    Stale = 9,
    Stranger = 10,
    Worn = 11,
    /// The journal was stopped.
    Closed = 13,
    Fenced = 14,
    UnknownOperation = 66,
    Malformed = 67,
    TooLong = 68,
    OtherVersion = 69,
    /// This connection may not end the service.
    Forbidden = 70,
    /// The service only reads the disk, and the transaction writes.
    ReadOnly = 71,
}

impl Refusal {
    const ALL: [Refusal; 16] = [
        Refusal::NoMemory,
        Refusal::BadAddress,
        Refusal::BadSize,
        Refusal::TooLarge,
        Refusal::DeviceFailed,
        Refusal::Stale,
        Refusal::Stranger,
        Refusal::Worn,
        Refusal::Closed,
        Refusal::Fenced,
        Refusal::UnknownOperation,
        Refusal::Malformed,
        Refusal::TooLong,
        Refusal::OtherVersion,
        Refusal::Forbidden,
        Refusal::ReadOnly,
    ];

    pub(crate) fn of(status: u32) -> Option<Refusal> {
        Refusal::ALL.into_iter().find(|r| *r as u32 == status)
    }

    fn ends_session(self) -> bool {
        matches!(self, Refusal::Stale | Refusal::Stranger | Refusal::Worn | Refusal::Fenced)
    }

    fn reason(self) -> &'static str {
        match self {
            Refusal::NoMemory => "memory was refused",
            Refusal::BadAddress => "an address names no object",
            Refusal::BadSize => "a value's length is not its object's, or a bit's byte exceeds 1",
            Refusal::TooLarge => "too many blocks, parts or objects",
            Refusal::DeviceFailed => "the disk failed",
            Refusal::Stale | Refusal::Stranger | Refusal::Worn | Refusal::Fenced => {
                "the session has ended"
            }
            Refusal::Closed => "the journal was stopped",
            Refusal::UnknownOperation => "no operation has the request's number",
            Refusal::Malformed => "the record is spelled as no request",
            Refusal::TooLong => "the record is too long",
            Refusal::OtherVersion => {
                "the port's version of the protocol is another, and lacks the call"
            }
            Refusal::Forbidden => "this connection may not end the service",
            Refusal::ReadOnly => "the service only reads the disk",
        }
    }
}

impl Error {
    /// The reason of a refusal, by the client or by the port.
    pub fn refusal(&self) -> Option<Refusal> {
        match self {
            Error::Refused(refusal) | Error::RefusedObject(refusal, _) => Some(*refusal),
            _ => None,
        }
    }

    /// Whether the connection is of no more use.
    pub(crate) fn ends_connection(&self) -> bool {
        match self {
            Error::Refused(refusal) => refusal.ends_session(),
            Error::Lost(_) | Error::Protocol(_) | Error::NoPort(_) => true,
            Error::Conflict | Error::Unsure(_) | Error::Full => false,
            Error::RefusedObject(..) | Error::Restarted | Error::NoneFree => false,
        }
    }

    /// Whether what was asked for is wrong, and the port has not failed.
    pub(crate) fn is_of_arguments(&self) -> bool {
        use Refusal::{BadAddress, BadSize, TooLarge};
        matches!(self.refusal(), Some(BadAddress | BadSize | TooLarge))
    }

    /// The same error of the first exchange of a connection, before anything was asked.
    pub(crate) fn of_a_greeting(self) -> Error {
        match self {
            Error::Lost(error) => Error::NoPort(error),
            other => other,
        }
    }
}

impl fmt::Display for Error {
    fn fmt(&self, f: &mut fmt::Formatter<'_>) -> fmt::Result {
        match self {
            Error::Refused(refusal) => {
                write!(f, "refused by {}: {}", *refusal as u32, refusal.reason())
            }
            Error::RefusedObject(refusal, Address { block, bit }) => {
                let why = Error::Refused(*refusal);
                write!(f, "{why}: block {block}, bit {bit}")
            }
            Error::Conflict => write!(f, "a value that was read is another now"),
            Error::NoPort(error) => write!(f, "no port answers: {error}"),
            Error::Unsure(_) => write!(f, "the transaction is not known to be stable"),
            Error::Lost(error) => write!(f, "no answer came: {error}"),
            Error::Protocol(why) => write!(f, "the protocol has no such answer: {why}"),
            Error::Full => write!(f, "as many commits are in flight as may be"),
            Error::Restarted => write!(
                f,
                "the service was started again, and commits that did not wait may be gone"
            ),
            Error::NoneFree => write!(f, "no record is free"),
        }
    }
}

impl error::Error for Error {
    fn source(&self) -> Option<&(dyn error::Error + 'static)> {
        match self {
            Error::NoPort(error) | Error::Lost(error) => Some(error),
            _ => None,
        }
    }
}
