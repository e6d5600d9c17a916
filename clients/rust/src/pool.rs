//! Free records by the bits of a block.

use crate::disk::BLOCK_BITS;
use crate::{random, Address, Error, Refusal, Transaction};
use std::ops::Range;

/// The records whose bits are these of a block: that of a record is 1 where it is in use.
///
/// A pool looks once which records are free, and again when it has handed all of them out.
///
/// ```no_run
/// # use jnl::{Address, Durability, Error, Journal, Pool};
/// # fn main() -> Result<(), Error> {
/// let mut journal = Journal::connect("/run/disk.sock")?;
/// let mut pool = Pool::new(514, 0..512);
/// let record = journal.run(Durability::Stable, |t| -> Result<u32, Error> {
///     let record = pool.take(t)?;
///     let at = Address { block: 515 + u64::from(record / 32), bit: record % 32 * 1024 };
///     t.write(at, vec![7; 128]);
///     Ok(record)
/// })?;
/// # Ok(())
/// # }
/// ```
#[derive(Debug)]
pub struct Pool {
    block: u64,
    records: Range<u32>,
    /// Those that were found free and were not handed out since.
    free: Vec<u32>,
}

impl Pool {
    /// The pool of these records.
    pub fn new(block: u64, records: Range<u32>) -> Pool {
        Pool { block, records, free: Vec::new() }
    }

    /// Takes a record that is free: the commit compares its bit with 0 and sets it. Where another
    /// one has it by then the commit is [`Error::Conflict`], and the next try takes another record.
    ///
    /// # Errors
    /// [`Error::NoneFree`], and those of a scan.
    pub fn take(&mut self, transaction: &mut Transaction<'_>) -> Result<u32, Error> {
        if self.free.is_empty() {
            self.look(transaction)?;
        }
        while let Some(record) = self.free.pop() {
            let at = Address { block: self.block, bit: record };
            if !transaction.has(at) {
                transaction.expect(at, [0])?;
                transaction.write(at, [1]);
                return Ok(record);
            }
        }
        Err(Error::NoneFree)
    }

    /// Gives a record back.
    ///
    /// # Errors
    /// [`Refusal::BadAddress`] where it is not in use, or none of the pool; and those of a read.
    pub fn give(&self, transaction: &mut Transaction<'_>, record: u32) -> Result<(), Error> {
        let at = Address { block: self.block, bit: record };
        if !self.records.contains(&record) || transaction.read(at)? != [1] {
            return Err(Error::RefusedObject(Refusal::BadAddress, at));
        }
        transaction.write(at, [0]);
        Ok(())
    }

    /// Looks which records are free, and shuffles them: two programs take different ones.
    fn look(&mut self, transaction: &mut Transaction<'_>) -> Result<(), Error> {
        let found = transaction.scan(self.block, self.records.start, false, BLOCK_BITS)?;
        self.free = found.into_iter().filter(|record| self.records.contains(record)).collect();
        for last in (1..self.free.len()).rev() {
            self.free.swap(last, random() as usize % (last + 1));
        }
        Ok(())
    }
}
