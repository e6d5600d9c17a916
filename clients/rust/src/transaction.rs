use crate::record::{Action, Record, MAX_ADDRESSES};
use crate::{Address, Durability, Error, Journal, Receipt, Refusal};
use std::collections::{BTreeMap, BTreeSet};

/// Reads and writes that are committed as one.
///
/// It holds no lock. A commit compares what was read, and is refused by [`Error::Conflict`] where
/// any of it is another by then. Dropped, it has done nothing.
#[derive(Debug)]
pub struct Transaction<'j> {
    journal: &'j mut Journal,
    reads: BTreeMap<Address, Vec<u8>>,
    writes: BTreeMap<Address, Vec<u8>>,
    /// How many requests have read.
    requests: u32,
    /// How the last one ended, and the commit.
    end: End,
}

/// How a request has ended.
#[derive(Clone, Copy, Debug)]
enum End {
    /// Done, or refused for what it asked for.
    Answered,
    Conflict,
    /// The port has failed it.
    Failed,
}

impl<'j> Transaction<'j> {
    pub(crate) fn new(journal: &'j mut Journal) -> Self {
        let (reads, writes) = (BTreeMap::new(), BTreeMap::new());
        Transaction { journal, reads, writes, requests: 0, end: End::Answered }
    }

    /// The object's value: what the transaction wrote there, or else what it read before, or else
    /// what the journal has now.
    ///
    /// # Errors
    /// Each that says that nothing was done, and [`Error::Lost`]. The transaction is as it was.
    pub fn read(&mut self, address: Address) -> Result<Vec<u8>, Error> {
        Ok(self.read_many(&[address])?.remove(0))
    }

    /// The values of at most 256 objects, each as [`Transaction::read`] gives it. One request reads
    /// those that the transaction does not have yet, as they are at one moment.
    ///
    /// # Errors
    /// As [`Transaction::read`].
    pub fn read_many(&mut self, addresses: &[Address]) -> Result<Vec<Vec<u8>>, Error> {
        if addresses.len() > MAX_ADDRESSES {
            return Err(Error::Refused(Refusal::TooLarge));
        }
        let missing: BTreeSet<Address> =
            addresses.iter().copied().filter(|a| self.own(a).is_none()).collect();
        self.fetch(&missing.into_iter().collect::<Vec<_>>())?;
        Ok(addresses.iter().filter_map(|a| self.own(a)).cloned().collect())
    }

    /// What the transaction has of an object.
    fn own(&self, address: &Address) -> Option<&Vec<u8>> {
        self.writes.get(address).or_else(|| self.reads.get(address))
    }

    /// Reads objects into the transaction, by one request.
    fn fetch(&mut self, missing: &[Address]) -> Result<(), Error> {
        if !missing.is_empty() {
            let values = self.journal.read(missing);
            let values = self.note(values)?;
            self.reads.extend(missing.iter().copied().zip(values));
            self.requests += 1;
        }
        Ok(())
    }

    /// Has the object overwritten by the commit, which finds a wrong address or size.
    pub fn write(&mut self, address: Address, value: impl Into<Vec<u8>>) {
        self.writes.insert(address, value.into());
    }

    /// Whether the transaction has read or overwritten an object.
    pub fn has(&self, address: Address) -> bool {
        self.own(&address).is_some()
    }

    /// Has the commit compare an object with a value that the caller knows, as if it had been read.
    ///
    /// # Errors
    /// [`Error::Conflict`] where the transaction has read another value.
    pub fn expect(&mut self, address: Address, value: impl Into<Vec<u8>>) -> Result<(), Error> {
        let value = value.into();
        match self.reads.get(&address) {
            Some(known) if *known != value => Err(Error::Conflict),
            _ => {
                self.reads.insert(address, value);
                Ok(())
            }
        }
    }

    pub(crate) fn scan(
        &mut self,
        block: u64,
        first: u32,
        value: bool,
        most: u32,
    ) -> Result<Vec<u32>, Error> {
        let found = self.journal.scan(block, first, value, most);
        self.note(found)
    }

    /// Commits: where each object that was read still has its value, all writes are done at one
    /// place of the history, else nothing.
    ///
    /// # Errors
    /// [`Error::Conflict`] and the others. [`Error::Lost`] and [`Error::Protocol`] leave open
    /// whether it was done.
    pub fn commit(mut self, durability: Durability) -> Result<Receipt, Error> {
        self.commit_parts(durability)
    }

    /// Puts the commit in flight, and does not wait for its answer, which
    /// [`Journal::next_answer`] gives. So one connection has many commits under way at once. They
    /// are done in the order in which they were submitted, and the tag is the caller's name of this
    /// one.
    ///
    /// A commit may be held back, so that many are sent by one call of the system: until
    /// [`Journal::next_answer`] has to wait, 32 KiB are held back, [`Journal::push`], or any other
    /// call that sends. While the socket takes no more, this call receives the answers that have
    /// come, and keeps them. So port and caller never wait for each other.
    ///
    /// All other calls work while commits are in flight. They are answered after those.
    ///
    /// Where the connection is lost, each commit in flight that had no answer has [`Error::Lost`]
    /// as its answer, in their order. Those that were done, if any, are the first ones of these.
    /// Until all answers are taken, each call that would send something sends nothing and answers
    /// [`Error::Lost`]. So nothing is done after a commit that may be missing, unless the caller
    /// has seen that. An answer that the protocol does not have is [`Error::Protocol`] for its
    /// commit, and [`Error::Lost`] for the later ones.
    ///
    /// # Errors
    /// Nothing was sent then, and nothing is in flight for it: [`Error::Full`], [`Error::NoPort`],
    /// [`Error::Lost`] after a loss, and what no record can hold.
    pub fn submit(self, durability: Durability, tag: u64) -> Result<(), Error> {
        let record = self.spelled(durability)?;
        self.journal.submit(record, durability == Durability::Stable, tag)
    }

    fn spelled(&self, durability: Durability) -> Result<Record, Error> {
        let written = self.writes.iter().map(|(a, value)| (Action::Write, a, value));
        let parts = self.compared().chain(written);
        let record = spell(durability, parts.clone())?.that_fits()?;
        self.journal.refuse(|disk| {
            parts.clone().try_for_each(|(_, address, value)| disk.check(address, value))
        })?;
        Ok(record)
    }

    pub(crate) fn commit_parts(&mut self, durability: Durability) -> Result<Receipt, Error> {
        let found =
            self.spelled(durability).and_then(|record| self.journal.commit(record, durability));
        let receipt = self.note(found)?;
        self.journal.last_receipt = Some(receipt);
        Ok(receipt)
    }

    fn compared(&self) -> impl Iterator<Item = (Action, &Address, &Vec<u8>)> + Clone {
        self.reads.iter().map(|(a, value)| (Action::Compare, a, value))
    }

    fn note<T>(&mut self, found: Result<T, Error>) -> Result<T, Error> {
        self.end = match &found {
            Err(Error::Conflict) => End::Conflict,
            Err(error) if !error.is_of_arguments() => End::Failed,
            _ => End::Answered,
        };
        found
    }

    /// After work that has failed, or a commit that was not done: whether the failure follows from
    /// what was so at one moment. What one request has read was so, and a port that has failed is
    /// asked nothing.
    ///
    /// # Errors
    /// [`Error::Conflict`] where it does not; and the others, where that is not known.
    pub(crate) fn look_at_failure(self) -> Result<(), Error> {
        match self.end {
            End::Conflict => Err(Error::Conflict),
            End::Answered if self.requests > 1 => {
                let record = spell(Durability::Lazy, self.compared())?;
                self.journal.commit(record, Durability::Lazy).map(|_| ())
            }
            End::Answered | End::Failed => Ok(()),
        }
    }
}

/// The record of a transaction of these parts.
fn spell<'a>(
    durability: Durability,
    parts: impl Iterator<Item = (Action, &'a Address, &'a Vec<u8>)> + Clone,
) -> Result<Record, Error> {
    let mut record = Record::commit(durability, parts.clone().count())?;
    for (action, address, value) in parts {
        record.part(action, *address, value)?;
    }
    Ok(record)
}
