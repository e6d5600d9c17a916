//! The disk that is served, and what a client was told of its commits.

use crate::record::Reader;
use crate::{Address, Error, Receipt, Refusal, FIRST_VERSION};

const MAX_REGIONS: usize = 8;
pub(crate) const BLOCK_BITS: u32 = 32_768;

/// The blocks from one on, to the one before the next region.
#[derive(Clone, Copy, Debug, PartialEq, Eq)]
pub struct Region {
    /// The first block.
    pub first: u64,
    /// How many bits their objects have: 1 is a bit, 64 to 16384 a record, 32768 the whole block.
    pub bits: u32,
}

/// A disk that is served. A port whose version of the protocol is 1 tells the blocks alone: all else
/// is 0, and there are no regions.
#[derive(Clone, Debug, Default, PartialEq, Eq)]
pub struct Disk {
    /// The version of the protocol that was greeted by.
    pub version: u32,
    /// How many blocks there are.
    pub blocks: u64,
    /// Another number each time that the service is started.
    pub opening: u64,
    /// How many slots there are.
    pub slots: u32,
    /// How many distinct blocks a transaction may write.
    pub most_blocks: u32,
    /// The regions.
    pub regions: Vec<Region>,
}

impl Disk {
    /// Reads the answer to a hello in a version.
    pub(crate) fn read(version: u32, answer: &mut Reader<'_>) -> Result<Disk, Error> {
        if answer.word()? != version {
            return Err(Error::Protocol("the port speaks another version"));
        }
        let blocks = answer.hyper()?;
        if version == FIRST_VERSION {
            return Ok(Disk { version, blocks, ..Disk::default() });
        }
        let (opening, slots, most_blocks) = (answer.hyper()?, answer.word()?, answer.word()?);
        let regions = answer.list(MAX_REGIONS, Region::read)?;
        Ok(Disk { version, blocks, opening, slots, most_blocks, regions })
    }

    /// How many bits the objects of a block have, if it has any.
    fn bits_of(&self, block: u64) -> Option<u32> {
        let mut before = self.regions.iter().take_while(|region| region.first <= block);
        before.by_ref().last().filter(|_| block < self.blocks).map(|region| region.bits)
    }

    /// Refuses an address that names no object. Answers how many bits it has.
    pub(crate) fn check_address(&self, address: &Address) -> Result<u32, Error> {
        match self.bits_of(address.block) {
            Some(bits) if address.bit < BLOCK_BITS && address.bit % bits == 0 => Ok(bits),
            _ => Err(Error::RefusedObject(Refusal::BadAddress, *address)),
        }
    }

    /// Refuses an address that names no object, and a value that it never has.
    pub(crate) fn check(&self, address: &Address, value: &[u8]) -> Result<(), Error> {
        let is_value = match self.check_address(address)? {
            1 => matches!(value, [0 | 1]),
            bits => value.len() == bits as usize / 8,
        };
        match is_value {
            true => Ok(()),
            false => Err(Error::RefusedObject(Refusal::BadSize, *address)),
        }
    }
}

impl Region {
    fn read(answer: &mut Reader<'_>) -> Result<Region, Error> {
        let region = Region { first: answer.hyper()?, bits: answer.word()? };
        match region.bits {
            1 | 64..=BLOCK_BITS if region.bits.is_power_of_two() => Ok(region),
            _ => Err(Error::Protocol("a region has no such objects")),
        }
    }
}

/// What a client was told of commits of one opening after another.
#[derive(Debug, Default)]
pub(crate) struct Promises {
    /// The commits up to the last one that was told, and did not wait or is not known to be stable.
    told: u64,
    /// How many are known to be stable.
    stable: u64,
}

impl Promises {
    /// Notes what a commit was answered, which was to wait or not.
    pub fn note_commit(&mut self, found: &Result<Receipt, Error>, waits: bool) {
        match found {
            Ok(receipt) if waits => self.note_stable(receipt.commits),
            Ok(receipt) | Err(Error::Unsure(receipt)) => self.told = self.told.max(receipt.commits),
            Err(_) => {}
        }
    }

    pub fn note_stable(&mut self, stable: u64) {
        self.stable = self.stable.max(stable);
    }

    /// Notes that a service has ended after a flush.
    pub fn note_stop(&mut self) {
        self.note_stable(self.told);
    }

    /// Notes that a greeting has told of a disk, after another one did. True, once, if it is another
    /// opening, and commits of the one before may be gone. Each start of a service of version 1 is
    /// taken for the same one, since it does not tell which it is.
    pub fn meet(&mut self, before: &Disk, disk: &Disk) -> bool {
        if (before.version, before.opening) == (disk.version, disk.opening) {
            return false;
        }
        let may_be_gone = self.told > self.stable;
        *self = Promises::default();
        may_be_gone
    }
}
