//! Requests as they are spelled, and answers as they are read. All numbers have their highest byte
//! first.

use crate::{Address, Durability, Error, Receipt, Refusal};

/// A record's longest, its length not counted.
pub(crate) const MAX_RECORD: usize = 2_097_152;
const MAX_VALUE: usize = 4096;
const MAX_PARTS: usize = 4096;
pub(crate) const MAX_ADDRESSES: usize = 256;
pub(crate) const LENGTH_BYTES: usize = 4;
const UNSURE: u32 = 65;
const CONFLICT: u32 = 64;

#[derive(Clone, Copy, Debug, PartialEq, Eq)]
pub(crate) enum Operation {
    Hello = 0,
    Commit = 1,
    Read = 2,
    Flush = 3,
    Stat = 4,
    Stop = 5,
    Counters = 6,
    Scan = 7,
}

#[derive(Clone, Copy)]
pub(crate) enum Action {
    Compare = 0,
    Write = 1,
}

/// A request, with room for its length at the front.
pub(crate) struct Record {
    operation: Operation,
    bytes: Vec<u8>,
}

impl Record {
    fn new(operation: Operation) -> Record {
        let mut record = Record { operation, bytes: vec![0; LENGTH_BYTES] };
        record.word(operation as u32);
        record
    }

    pub fn hello(version: u32) -> Record {
        let mut record = Record::new(Operation::Hello);
        record.word(version);
        record
    }

    /// A transaction of so many parts, which are to be added.
    pub fn commit(durability: Durability, parts: usize) -> Result<Record, Error> {
        let mut record = Record::new(Operation::Commit);
        record.word((durability == Durability::Stable) as u32);
        record.number_of(parts, MAX_PARTS)?;
        Ok(record)
    }

    pub fn part(&mut self, action: Action, address: Address, value: &[u8]) -> Result<(), Error> {
        if value.len() > MAX_VALUE {
            return Err(Error::RefusedObject(Refusal::BadSize, address));
        }
        self.word(action as u32);
        self.address(address);
        self.word(value.len() as u32);
        self.bytes.extend_from_slice(value);
        self.bytes.resize(self.bytes.len() + padding(value.len()), 0);
        Ok(())
    }

    pub fn read(addresses: &[Address]) -> Result<Record, Error> {
        let mut record = Record::new(Operation::Read);
        record.number_of(addresses.len(), MAX_ADDRESSES)?;
        addresses.iter().for_each(|address| record.address(*address));
        Ok(record)
    }

    pub fn flush() -> Record {
        Record::new(Operation::Flush)
    }

    pub fn stat() -> Record {
        Record::new(Operation::Stat)
    }

    pub fn stop() -> Record {
        Record::new(Operation::Stop)
    }

    pub fn counters() -> Record {
        Record::new(Operation::Counters)
    }

    /// A scan from a bit on for a value, of so many bits at most.
    pub fn scan(from: Address, value: bool, most: u32) -> Record {
        let mut record = Record::new(Operation::Scan);
        record.address(from);
        record.word(value.into());
        record.word(most);
        record
    }

    pub fn operation(&self) -> Operation {
        self.operation
    }

    /// The bytes with their length in front, where they are no more than a record may have.
    pub fn finish(self) -> Result<Vec<u8>, Error> {
        let mut bytes = self.that_fits()?.bytes;
        let length = bytes.len() - LENGTH_BYTES;
        bytes[..LENGTH_BYTES].copy_from_slice(&(length as u32).to_be_bytes());
        Ok(bytes)
    }

    /// The same, where it has no more bytes than a record may have.
    pub fn that_fits(self) -> Result<Record, Error> {
        if self.bytes.len() - LENGTH_BYTES > MAX_RECORD {
            return Err(Error::Refused(Refusal::TooLarge));
        }
        Ok(self)
    }

    fn word(&mut self, number: u32) {
        self.bytes.extend_from_slice(&number.to_be_bytes());
    }

    /// How many items follow, where a record may have so many.
    fn number_of(&mut self, items: usize, most: usize) -> Result<(), Error> {
        if items > most {
            return Err(Error::Refused(Refusal::TooLarge));
        }
        self.word(items as u32);
        Ok(())
    }

    fn address(&mut self, address: Address) {
        self.bytes.extend_from_slice(&address.block.to_be_bytes());
        self.word(address.bit);
    }
}

/// The items of an answer that were not read yet.
pub(crate) struct Reader<'a> {
    rest: &'a [u8],
}

impl<'a> Reader<'a> {
    /// What stands behind the operation of an answer, or what it refuses.
    pub fn of_answer(answer: &'a [u8], operation: Operation) -> Result<Reader<'a>, Error> {
        let mut reader = Reader { rest: answer };
        let status = reader.word()?;
        if status == 0 {
            return match reader.word()? == operation as u32 {
                true => Ok(reader),
                false => Err(Error::Protocol("an answer to another request")),
            };
        }
        let error = if status == UNSURE && operation == Operation::Commit {
            Error::Unsure(reader.receipt()?)
        } else if status == CONFLICT {
            Error::Conflict
        } else {
            Refusal::of(status).map_or(Error::Protocol("an unknown status"), Error::Refused)
        };
        reader.end()?;
        Err(error)
    }

    fn take(&mut self, size: usize) -> Result<&'a [u8], Error> {
        if size > self.rest.len() {
            return Err(Error::Protocol("an answer is cut short"));
        }
        let (found, rest) = self.rest.split_at(size);
        self.rest = rest;
        Ok(found)
    }

    fn number(&mut self, size: usize) -> Result<u64, Error> {
        Ok(self.take(size)?.iter().fold(0, |number, byte| number << 8 | u64::from(*byte)))
    }

    pub fn word(&mut self) -> Result<u32, Error> {
        Ok(self.number(4)? as u32)
    }

    pub fn hyper(&mut self) -> Result<u64, Error> {
        self.number(8)
    }

    /// Items that follow their number, of which there are so many at most.
    pub fn list<T>(
        &mut self,
        most: usize,
        item: impl Fn(&mut Reader<'a>) -> Result<T, Error>,
    ) -> Result<Vec<T>, Error> {
        let count = self.word()? as usize;
        if count > most {
            return Err(Error::Protocol("a list is too long"));
        }
        (0..count).map(|_| item(self)).collect()
    }

    pub fn receipt(&mut self) -> Result<Receipt, Error> {
        Ok(Receipt { place: self.hyper()?, commits: self.hyper()? })
    }

    pub fn value(&mut self) -> Result<Vec<u8>, Error> {
        let size = self.word()? as usize;
        if size > MAX_VALUE {
            return Err(Error::Protocol("a value is too long"));
        }
        let found = self.take(size)?.to_vec();
        match self.take(padding(size))?.iter().all(|byte| *byte == 0) {
            true => Ok(found),
            false => Err(Error::Protocol("bytes stand behind a value")),
        }
    }

    pub fn end(&self) -> Result<(), Error> {
        match self.rest.is_empty() {
            true => Ok(()),
            false => Err(Error::Protocol("bytes stand behind an answer")),
        }
    }
}

/// How many zeros stand behind a value of this size.
fn padding(size: usize) -> usize {
    size.wrapping_neg() % 4
}
