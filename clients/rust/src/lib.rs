//! A client of the journal, over its port. `docs/PROTOCOL.md` has the bytes.
//!
//! ```no_run
//! use jnl::{Address, Durability, Error, Journal, Transaction};
//!
//! const FROM: Address = Address { block: 515, bit: 0 };
//! const TO: Address = Address { block: 515, bit: 1024 };
//!
//! fn transfer(t: &mut Transaction) -> Result<(), Error> {
//!     let (mut from, mut to) = (t.read(FROM)?, t.read(TO)?);
//!     from[0] -= 1;
//!     to[0] += 1;
//!     t.write(FROM, from);
//!     t.write(TO, to);
//!     Ok(())
//! }
//!
//! fn main() -> Result<(), Error> {
//!     let mut journal = Journal::connect("/run/disk.sock")?;
//!     journal.run(Durability::Stable, transfer)
//! }
//! ```
//!
//! A [`Journal`] is one connection. One that the port has ended, for its silence or with the
//! service, is made again by the next call. Where the service was started again in between, and
//! commits of this connection may be gone, that call answers [`Error::Restarted`].
//!
//! [`Transaction::submit`] puts a commit in flight without waiting for its answer, and
//! [`Journal::answers`] gives the answers in order:
//!
//! ```no_run
//! # use jnl::{Address, Durability, Error, Journal};
//! # fn main() -> Result<(), Error> {
//! let mut journal = Journal::connect("/run/disk.sock")?;
//! for row in 0..64 {
//!     let mut transaction = journal.begin();
//!     transaction.write(Address { block: 515, bit: 1024 * (row % 32) }, vec![row as u8; 128]);
//!     transaction.submit(Durability::Stable, row.into())?;
//! }
//! for answer in journal.answers() {
//!     println!("row {}: {:?}", answer.tag, answer.result);
//! }
//! # Ok(())
//! # }
//! ```
#![forbid(unsafe_code)]
#![warn(missing_docs)]

mod disk;
mod error;
mod flight;
mod pool;
mod record;
mod stream;
mod transaction;

pub use disk::{Disk, Region};
pub use error::{Error, Refusal};
pub use flight::{Answer, Answers, MAX_IN_FLIGHT};
pub use pool::Pool;
pub use transaction::Transaction;

use disk::BLOCK_BITS;
use flight::Flights;
use record::{Operation, Reader, Record};
use std::collections::hash_map::RandomState;
use std::collections::BTreeMap;
use std::hash::{BuildHasher, Hasher};
use std::io::ErrorKind;
use std::path::Path;
use std::thread;
use std::time::Duration;
use stream::{Deadline, Place, Stream};

const FIRST_VERSION: u32 = 1;
const VERSION: u32 = 2;
const MAX_COUNTERS: usize = 256;
/// How often a transaction that meets conflicts is run.
const TRIES: u32 = 100;
const FIRST_PAUSE: Duration = Duration::from_micros(500);
const LONGEST_PAUSE: Duration = Duration::from_millis(100);

/// An object: its block, and its first bit there.
///
/// Blocks 0 to 512 are the journal's own. What the others have follows from the regions of the disk
/// ([`Journal::disk`]). Where none were named when the disk was created, block 514 has bits, at each
/// bit below 32768, each a byte 0 or 1. Blocks 515 to 530 have objects of 128 bytes, at multiples of
/// 1024. Blocks 513, and 531 to the last, are objects of 4096 bytes, at bit 0.
#[derive(Clone, Copy, Debug, PartialEq, Eq, PartialOrd, Ord, Hash)]
pub struct Address {
    /// The block.
    pub block: u64,
    /// The first bit in the block.
    pub bit: u32,
}

/// When a commit is answered.
#[derive(Clone, Copy, Debug, PartialEq, Eq)]
pub enum Durability {
    /// Once the transaction is stable, so that no crash takes it back.
    Stable,
    /// At once. It becomes stable soon, or at the next [`Journal::flush`].
    Lazy,
}

/// Where a commit stands.
#[derive(Clone, Copy, Debug, PartialEq, Eq)]
pub struct Receipt {
    /// Its place in the history, from 0.
    pub place: u64,
    /// How many commits there are up to it.
    pub commits: u64,
}

/// How many commits there are.
#[derive(Clone, Copy, Debug, PartialEq, Eq)]
pub struct Stat {
    /// All of them.
    pub commits: u64,
    /// So many of them are stable at least.
    pub stable: u64,
}

/// A connection to the port.
#[derive(Debug)]
pub struct Journal {
    place: Place,
    stream: Option<Stream>,
    timeout: Option<Duration>,
    disk: Disk,
    last_receipt: Option<Receipt>,
    flights: Flights,
}

impl Journal {
    /// Connects to the socket at a path.
    ///
    /// # Errors
    /// [`Error::NoPort`], [`Error::Protocol`], and [`Error::Refused`] by a version.
    pub fn connect(path: impl AsRef<Path>) -> Result<Journal, Error> {
        Journal::at(Place::Socket(path.as_ref().into()), None)
    }

    /// Connects to the socket at a path, with the limit of [`Journal::set_timeout`] from the first
    /// on.
    ///
    /// # Errors
    /// As [`Journal::connect`]. A port that does not answer in time is [`Error::NoPort`].
    pub fn connect_within(path: impl AsRef<Path>, limit: Duration) -> Result<Journal, Error> {
        Journal::at(Place::Socket(path.as_ref().into()), Some(limit))
    }

    /// Connects to a TCP port of this machine.
    ///
    /// # Errors
    /// As [`Journal::connect`].
    pub fn connect_port(port: u16) -> Result<Journal, Error> {
        Journal::at(Place::Port(port), None)
    }

    /// Connects to a TCP port of this machine, as [`Journal::connect_within`] does.
    ///
    /// # Errors
    /// As [`Journal::connect_within`].
    pub fn connect_port_within(port: u16, limit: Duration) -> Result<Journal, Error> {
        Journal::at(Place::Port(port), Some(limit))
    }

    fn at(place: Place, timeout: Option<Duration>) -> Result<Journal, Error> {
        let (stream, disk) = dial(&place, Deadline::after(timeout))?;
        let flights = Flights::default();
        Ok(Journal { place, stream: Some(stream), timeout, disk, last_receipt: None, flights })
    }

    /// How many blocks the disk has.
    pub fn blocks(&self) -> u64 {
        self.disk.blocks
    }

    /// The disk, as the port told it when the connection was made last.
    pub fn disk(&self) -> &Disk {
        &self.disk
    }

    /// The receipt of the last commit that was done over this connection, as by [`Journal::run`].
    /// Commits that were submitted have theirs in their answers.
    pub fn last_receipt(&self) -> Option<Receipt> {
        self.last_receipt
    }

    /// Sets the most that a call waits for the port in all; `None`, as after [`Journal::connect`],
    /// and zero are for ever. A call that waited in vain answers [`Error::Lost`], or
    /// [`Error::NoPort`] where it had to connect again. The error in it is then of the kind
    /// `TimedOut`.
    pub fn set_timeout(&mut self, timeout: Option<Duration>) {
        self.timeout = timeout;
    }

    /// A transaction that has done nothing.
    pub fn begin(&mut self) -> Transaction<'_> {
        Transaction::new(self)
    }

    /// The values of at most 256 objects, all at one place of the history.
    ///
    /// # Errors
    /// Each that says that nothing was done, and [`Error::Lost`].
    pub fn read(&mut self, addresses: &[Address]) -> Result<Vec<Vec<u8>>, Error> {
        let record = Record::read(addresses)?;
        self.refuse(|disk| addresses.iter().try_for_each(|a| disk.check_address(a).map(|_| ())))?;
        self.ask(record, |answer| {
            if answer.word()? as usize != addresses.len() {
                return Err(Error::Protocol("there are not as many values as addresses"));
            }
            addresses.iter().map(|_| answer.value()).collect()
        })
    }

    /// Runs the work in a transaction and commits it, again after a pause where it meets a
    /// conflict, up to a hundred times.
    ///
    /// Work that reads by more than one request may see two moments, and so objects that do not fit
    /// together. Where it answers an error, or its commit is refused by [`Refusal::BadAddress`],
    /// [`Refusal::BadSize`] or [`Refusal::TooLarge`], `run` asks the port whether all that it read
    /// was so at one moment, by a commit that only compares. If not, the work is run again. If that
    /// request fails, `run` answers its error, and not that of the work. Nothing was done then.
    /// Where the port has failed the last call of the transaction, as by [`Error::Lost`], or it has
    /// told [`Error::Restarted`], the error of the work is answered at once.
    ///
    /// The work must end, and not panic, whatever it reads. [`Transaction::read_many`] reads
    /// objects of one moment.
    ///
    /// # Errors
    /// What the work answers, with nothing done; and each error of a commit.
    pub fn run<T, E: From<Error>>(
        &mut self,
        durability: Durability,
        mut work: impl FnMut(&mut Transaction<'_>) -> Result<T, E>,
    ) -> Result<T, E> {
        for attempt in 0..TRIES {
            pause_before(attempt);
            let mut transaction = self.begin();
            let found = work(&mut transaction)
                .and_then(|found| Ok(transaction.commit_parts(durability).map(|_| found)?));
            let Err(failure) = found else { return found };
            match transaction.look_at_failure() {
                Ok(()) => return Err(failure),
                Err(Error::Conflict) => {}
                Err(error) => return Err(error.into()),
            }
        }
        Err(Error::Conflict.into())
    }

    /// Makes all commits stable that were answered before. Answers how many are stable of this
    /// opening. Where the service was started again since, so that some of this connection may be
    /// gone, it answers [`Error::Restarted`], as each call does.
    ///
    /// # Errors
    /// Each that says that nothing was done, and [`Error::Lost`].
    pub fn flush(&mut self) -> Result<u64, Error> {
        let stable = self.ask(Record::flush(), |answer| answer.hyper())?;
        self.flights.promises.note_stable(stable);
        Ok(stable)
    }

    /// How many commits there are, and how many of them are stable at least.
    ///
    /// # Errors
    /// Each that says that nothing was done, and [`Error::Lost`].
    pub fn stat(&mut self) -> Result<Stat, Error> {
        let stat = self.ask(Record::stat(), |answer| {
            Ok(Stat { commits: answer.hyper()?, stable: answer.hyper()? })
        })?;
        self.flights.promises.note_stable(stat.stable);
        Ok(stat)
    }

    /// What the service has counted since it opened the disk, by the names of `docs/PROTOCOL.md`.
    ///
    /// # Errors
    /// [`Refusal::OtherVersion`], with nothing sent, where the port's version is 1; and the others.
    pub fn counters(&mut self) -> Result<BTreeMap<u32, u64>, Error> {
        let counters = self.ask_second(Record::counters(), |answer| {
            answer.list(MAX_COUNTERS, |counter| Ok((counter.word()?, counter.hyper()?)))
        })?;
        Ok(counters.into_iter().collect())
    }

    /// The bits of a block that have a value, from a bit on, ascending, at most so many. All bits
    /// are as they are at one moment.
    ///
    /// # Errors
    /// [`Refusal::BadAddress`] where the block has no bits, or the first one is above 32767;
    /// [`Refusal::OtherVersion`], with nothing sent, where the port's version is 1; and the others.
    pub fn scan(
        &mut self,
        block: u64,
        first: u32,
        value: bool,
        most: u32,
    ) -> Result<Vec<u32>, Error> {
        let most = most.min(BLOCK_BITS);
        let record = Record::scan(Address { block, bit: first }, value, most);
        self.ask_second(record, |answer| {
            let bits = answer.list(most as usize, |bit| bit.word())?;
            let ascend = bits.windows(2).all(|pair| pair[0] < pair[1]);
            match ascend && bits.iter().all(|bit| (first..BLOCK_BITS).contains(bit)) {
                true => Ok(bits),
                false => Err(Error::Protocol("bits do not ascend within their block")),
            }
        })
    }

    /// Ends the service, after a flush.
    ///
    /// # Errors
    /// [`Refusal::Forbidden`] where this connection may not; and the others.
    pub fn stop(&mut self) -> Result<(), Error> {
        self.ask(Record::stop(), |_| Ok(()))?;
        self.flights.promises.note_stop();
        Ok(())
    }

    fn commit(&mut self, record: Record, durability: Durability) -> Result<Receipt, Error> {
        let found = self.ask(record, |answer| answer.receipt());
        self.flights.promises.note_commit(&found, durability == Durability::Stable);
        found
    }

    /// Refuses what a look at the disk refuses, unless the port has told no regions. One that may be
    /// another by now is to say so itself.
    fn refuse(&self, look: impl FnOnce(&Disk) -> Result<(), Error>) -> Result<(), Error> {
        if self.disk.regions.is_empty() {
            return Ok(());
        }
        look(&self.disk).or_else(|refusal| match self.is_current() {
            true => Err(refusal),
            false => Ok(()),
        })
    }

    /// Whether the disk is known as the port has it now: the port has not ended the connection.
    fn is_current(&self) -> bool {
        let flights = &self.flights;
        let is_quiet = |stream: &Stream| !flights.is_over() && stream.is_quiet();
        self.stream.as_ref().map_or(false, |stream| flights.are_waiting() || is_quiet(stream))
    }

    fn end_of_call(&self) -> Deadline {
        Deadline::after(self.timeout)
    }

    /// Begins a call that sends. A connection that the port ended since the last call is made again
    /// first: nothing was sent yet, so nothing is sent twice.
    fn begin_call(&mut self) -> Result<Deadline, Error> {
        self.flights.check()?;
        let ends = self.end_of_call();
        if !self.flights.are_waiting() {
            let is_over = self.flights.is_over();
            self.stream = self.stream.take().filter(|stream| !is_over && stream.is_quiet());
        }
        if self.stream.is_none() {
            self.dial(ends)?;
        }
        Ok(ends)
    }

    /// Makes a connection. Where it is to another opening, and commits of the one before may be
    /// gone, that is told once.
    fn dial(&mut self, ends: Deadline) -> Result<(), Error> {
        let (stream, disk) = dial(&self.place, ends)?;
        self.flights.begin_connection();
        let may_be_gone = self.flights.promises.meet(&self.disk, &disk);
        (self.stream, self.disk) = (Some(stream), disk);
        match may_be_gone {
            true => Err(Error::Restarted),
            false => Ok(()),
        }
    }

    /// Asks what version 1 does not have.
    fn ask_second<T>(
        &mut self,
        record: Record,
        decode: impl FnOnce(&mut Reader<'_>) -> Result<T, Error>,
    ) -> Result<T, Error> {
        self.begin_call()?;
        match self.disk.version {
            FIRST_VERSION => Err(Error::Refused(Refusal::OtherVersion)),
            _ => self.ask(record, decode),
        }
    }

    /// Asks the port.
    fn ask<T>(
        &mut self,
        record: Record,
        decode: impl FnOnce(&mut Reader<'_>) -> Result<T, Error>,
    ) -> Result<T, Error> {
        let operation = record.operation();
        let record = record.finish()?;
        let ends = self.begin_call()?;
        let mut bytes = self.flights.take_held();
        bytes.extend_from_slice(&record);
        self.over_stream(|stream, flights| {
            send_beside(stream, flights, &bytes, ends)?;
            while flights.are_waiting() {
                flights.settle(&stream.receive(ends)?)?;
            }
            decoded(&stream.receive(ends)?, operation, decode)
        })
    }

    /// Sends the commits that are held back. Where that fails they end so.
    fn send_held(&mut self, ends: Deadline) {
        let held = self.flights.take_held();
        if !held.is_empty() {
            let _ = self.over_stream(|stream, flights| send_beside(stream, flights, &held, ends));
        }
    }

    /// Receives the answer of one commit in flight. Where that fails all of them end so.
    fn receive_one(&mut self, ends: Deadline) {
        let _ = self.over_stream(|stream, flights| flights.settle(&stream.receive(ends)?));
    }

    /// Uses the connection. An error after which it is of no more use closes it, and ends all
    /// commits in flight.
    fn over_stream<T>(
        &mut self,
        work: impl FnOnce(&mut Stream, &mut Flights) -> Result<T, Error>,
    ) -> Result<T, Error> {
        let Some(stream) = &mut self.stream else {
            return Err(Error::Lost(ErrorKind::NotConnected.into()));
        };
        let found = work(stream, &mut self.flights);
        if let Err(error) = &found {
            if error.ends_connection() {
                self.stream = None;
                self.flights.lose(error);
            }
        }
        found
    }
}

/// Sends bytes, and gives commits in flight the answers that have come meanwhile.
fn send_beside(
    stream: &mut Stream,
    flights: &mut Flights,
    bytes: &[u8],
    ends: Deadline,
) -> Result<(), Error> {
    let sent = stream.send(bytes, ends).map_err(Error::Lost);
    while flights.are_waiting() {
        let Some(answer) = stream.received()? else { break };
        flights.settle(&answer)?;
    }
    sent
}

/// A connection that was greeted by the newest version that the port speaks, and the disk. Nothing
/// was asked over it yet.
fn dial(place: &Place, ends: Deadline) -> Result<(Stream, Disk), Error> {
    let mut stream = Stream::connect(place, ends).map_err(Error::NoPort)?;
    let greeting = match greet(&mut stream, VERSION, ends) {
        Err(Error::Refused(Refusal::OtherVersion)) => greet(&mut stream, FIRST_VERSION, ends),
        greeting => greeting,
    };
    Ok((stream, greeting.map_err(Error::of_a_greeting)?))
}

fn greet(stream: &mut Stream, version: u32, ends: Deadline) -> Result<Disk, Error> {
    let hello = Record::hello(version);
    let operation = hello.operation();
    stream.send(&hello.finish()?, ends).map_err(Error::Lost)?;
    decoded(&stream.receive(ends)?, operation, |answer| Disk::read(version, answer))
}

/// What an answer to an operation gives.
fn decoded<T>(
    answer: &[u8],
    operation: Operation,
    decode: impl FnOnce(&mut Reader<'_>) -> Result<T, Error>,
) -> Result<T, Error> {
    let mut reader = Reader::of_answer(answer, operation)?;
    let found = decode(&mut reader)?;
    reader.end()?;
    Ok(found)
}

/// Sleeps for a random time, whose most doubles with each attempt. The first waits for nothing.
fn pause_before(attempt: u32) {
    if attempt > 0 {
        let most = LONGEST_PAUSE.min(FIRST_PAUSE * (1 << attempt.min(8)));
        thread::sleep(most.mul_f64(f64::from(random()) / f64::from(u32::MAX)));
    }
}

/// A random number: a hasher's keys are those that the standard library has.
fn random() -> u32 {
    RandomState::new().build_hasher().finish() as u32
}
