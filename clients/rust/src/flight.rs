//! Commits in flight.

use crate::disk::Promises;
use crate::record::{Operation, Reader, Record};
use crate::{Error, Journal, Receipt};
use std::collections::VecDeque;
use std::io;

/// The most commits that may be in flight over one connection, with those whose answers are there
/// and were not taken.
pub const MAX_IN_FLIGHT: usize = 16_384;
/// Submitted commits are held back up to so many bytes, to be sent by one call of the system.
const HELD_BYTES: usize = 32_768;

/// What became of a commit that was submitted.
#[derive(Debug)]
pub struct Answer {
    /// The caller's name of the commit.
    pub tag: u64,
    /// Its receipt, or why it did not end well.
    pub result: Result<Receipt, Error>,
}

/// The commits in flight over one connection.
#[derive(Debug, Default)]
pub(crate) struct Flights {
    /// Those without an answer, in the order of their submission.
    waiting: VecDeque<Flight>,
    /// The answers that were not taken, all of commits before those.
    answered: VecDeque<Answer>,
    /// Some were lost, and not all answers are taken.
    has_lost: bool,
    /// The session has ended: the next call makes another connection.
    is_over: bool,
    /// Records that are not sent yet.
    held: Vec<u8>,
    /// What was told of these commits and of others.
    pub promises: Promises,
}

/// A commit in flight: its tag, and whether it is to wait until it is stable.
#[derive(Clone, Copy, Debug)]
struct Flight {
    tag: u64,
    waits: bool,
}

impl Flights {
    pub fn len(&self) -> usize {
        self.waiting.len() + self.answered.len()
    }

    /// Whether the port owes an answer.
    pub fn are_waiting(&self) -> bool {
        !self.waiting.is_empty()
    }

    pub fn is_over(&self) -> bool {
        self.is_over
    }

    /// After a loss nothing is sent until the answer of each commit that was lost is taken.
    pub fn check(&self) -> Result<(), Error> {
        match self.has_lost {
            true => Err(lost(io::ErrorKind::Other, "take the answers of lost commits first")),
            false => Ok(()),
        }
    }

    /// Notes that a connection was made. No commit waits then.
    pub fn begin_connection(&mut self) {
        self.is_over = false;
        self.held.clear();
    }

    /// Puts a commit in flight. Answers whether it is time to send what is held.
    pub fn hold(&mut self, tag: u64, waits: bool, record: &[u8]) -> bool {
        self.waiting.push_back(Flight { tag, waits });
        self.held.extend_from_slice(record);
        self.held.len() >= HELD_BYTES
    }

    pub fn take_held(&mut self) -> Vec<u8> {
        std::mem::take(&mut self.held)
    }

    /// Gives an answer to the first commit that has none.
    ///
    /// # Errors
    /// An answer that the protocol does not have. The commit has none then.
    pub fn settle(&mut self, answer: &[u8]) -> Result<(), Error> {
        let result = match receipt_of(answer) {
            Err(error @ Error::Protocol(_)) => return Err(error),
            result => result,
        };
        self.is_over |= matches!(&result, Err(error) if error.ends_connection());
        if let Some(Flight { tag, waits }) = self.waiting.pop_front() {
            self.promises.note_commit(&result, waits);
            self.answered.push_back(Answer { tag, result });
        }
        Ok(())
    }

    /// Has the first commit without an answer end by an error, and the later ones as lost.
    pub fn lose(&mut self, error: &Error) {
        self.has_lost |= self.are_waiting();
        for (i, Flight { tag, .. }) in self.waiting.drain(..).enumerate() {
            let error = match error {
                Error::Protocol(why) if i == 0 => Error::Protocol(why),
                error => again(error),
            };
            self.answered.push_back(Answer { tag, result: Err(error) });
        }
    }

    fn take(&mut self) -> Option<Answer> {
        let answer = self.answered.pop_front();
        self.has_lost &= self.len() > 0;
        answer
    }
}

fn receipt_of(answer: &[u8]) -> Result<Receipt, Error> {
    let mut reader = Reader::of_answer(answer, Operation::Commit)?;
    let receipt = reader.receipt()?;
    reader.end()?;
    Ok(receipt)
}

fn lost(kind: io::ErrorKind, why: &str) -> Error {
    Error::Lost(io::Error::new(kind, why))
}

/// A loss for the same reason.
fn again(error: &Error) -> Error {
    match error {
        Error::Lost(error) => lost(error.kind(), &error.to_string()),
        _ => lost(io::ErrorKind::Other, "the answer before it was wrong"),
    }
}

impl Journal {
    pub(crate) fn submit(&mut self, record: Record, waits: bool, tag: u64) -> Result<(), Error> {
        if self.flights.len() >= MAX_IN_FLIGHT {
            return Err(Error::Full);
        }
        let record = record.finish()?;
        let ends = self.begin_call()?;
        if self.flights.hold(tag, waits, &record) {
            self.send_held(ends);
        }
        Ok(())
    }

    /// Sends the commits that [`Transaction::submit`](crate::Transaction::submit) holds back. A
    /// loss is told by their answers.
    pub fn push(&mut self) {
        let ends = self.end_of_call();
        self.send_held(ends);
    }

    /// The answer of the commit that was submitted first, of those in flight, which it waits for;
    /// or `None`, where none is in flight. A limit of time is for one answer: where it is over, the
    /// connection is lost.
    pub fn next_answer(&mut self) -> Option<Answer> {
        let ends = self.end_of_call();
        if self.flights.answered.is_empty() {
            self.send_held(ends);
        }
        while self.flights.answered.is_empty() && self.flights.are_waiting() {
            self.receive_one(ends);
        }
        self.flights.take()
    }

    /// The answers of all commits in flight, in the order of their submission. The iterator waits
    /// for each.
    pub fn answers(&mut self) -> Answers<'_> {
        Answers { journal: self }
    }

    /// How many commits are in flight: submitted, and their answers not taken.
    pub fn in_flight(&self) -> usize {
        self.flights.len()
    }
}

/// The answers of commits in flight. See [`Journal::answers`].
#[derive(Debug)]
pub struct Answers<'j> {
    journal: &'j mut Journal,
}

impl Iterator for Answers<'_> {
    type Item = Answer;

    fn next(&mut self) -> Option<Answer> {
        self.journal.next_answer()
    }
}
