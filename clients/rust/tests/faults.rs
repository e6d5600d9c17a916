//! Tests of the client against a port with faults. `JNL_FAULTY_SOCKET` names the socket of
//! `clients/tests/faulty_port.py`, which lists the faults; nothing is tried without it.

use jnl::{Address, Durability, Error, Journal, Receipt, Refusal};
use std::io::ErrorKind;
use std::thread;
use std::time::{Duration, Instant};

/// The most that a call with a limit may take where the machine has other work.
const PATIENCE: Duration = Duration::from_secs(20);

fn bit(number: u32) -> Address {
    Address { block: 514, bit: number }
}

fn commit(journal: &mut Journal, number: u32) -> Result<Receipt, Error> {
    let mut t = journal.begin();
    t.write(bit(number), [1]);
    let found = t.commit(Durability::Lazy);
    if number == 0 || number == 13 {
        // The port ends the connection behind its answer.
        thread::sleep(Duration::from_millis(200));
    }
    found
}

fn commits(journal: &mut Journal) -> u64 {
    journal.stat().expect("the next call does well").commits
}

/// A commit that writes the bit is answered so, and was done so many times.
fn look_at(
    journal: &mut Journal,
    number: u32,
    is_wanted: fn(&Result<Receipt, Error>) -> bool,
    more: u64,
) {
    let before = commits(journal);
    let found = commit(journal, number);
    assert!(is_wanted(&found), "bit {number}: {found:?}");
    assert_eq!(commits(journal), before + more, "bit {number}");
}

fn look_at_run(
    journal: &mut Journal,
    number: u32,
    is_wanted: fn(&Result<(), Error>) -> bool,
    times: u32,
) {
    let before = commits(journal);
    let mut tries = 0;
    let found = journal.run(Durability::Stable, |t| {
        tries += 1;
        t.write(bit(number), [1]);
        Ok(())
    });
    assert!(is_wanted(&found), "bit {number}: {found:?}");
    assert_eq!((tries, commits(journal)), (times, before + 1), "bit {number}");
}

#[derive(Debug)]
enum OfWork {
    /// What the work itself answers.
    NotAsItShouldBe,
    Journal(Error),
}

impl From<Error> for OfWork {
    fn from(error: Error) -> Self {
        OfWork::Journal(error)
    }
}

/// Work that reads objects, one by one or all at once, waits and fails. What `run` answers, and how
/// often the work was run.
fn fail_after(journal: &mut Journal, at_once: bool, reads: &[Address]) -> (OfWork, u32) {
    let mut times = 0;
    let found = journal.run(Durability::Lazy, |t| {
        times += 1;
        if at_once {
            t.read_many(reads)?;
        }
        for address in reads {
            t.read(*address)?;
            if *address == bit(32) {
                // The port ends the connection behind its answer.
                thread::sleep(Duration::from_millis(200));
            }
        }
        Err::<(), _>(OfWork::NotAsItShouldBe)
    });
    (found.expect_err("the work fails"), times)
}

fn errors_of_work(j: &mut Journal) {
    use Error::{Lost, NoPort, Protocol, Refused, RefusedObject};
    use OfWork::{Journal, NotAsItShouldBe};
    let (first, before) = (bit(100), commits(j));
    let found = fail_after(j, false, &[first, bit(30)]);
    assert!(matches!(found, (NotAsItShouldBe, 3)), "what was read still holds: {found:?}");
    let found = fail_after(j, false, &[first, bit(30), Address { block: 0, bit: 0 }]);
    let is_refused = matches!(found, (Journal(RefusedObject(Refusal::BadAddress, _)), 3));
    assert!(is_refused, "a refused address: {found:?}");
    let found = fail_after(j, false, &[first, bit(31)]);
    assert!(matches!(found, (Journal(Lost(_)), 1)), "no answer: {found:?}");
    let found = fail_after(j, false, &[first, bit(32)]);
    assert!(matches!(found, (Journal(NoPort(_)), 1)), "no port: {found:?}");
    let found = fail_after(j, false, &[first, bit(33)]);
    let is_ended = matches!(found, (Journal(Refused(Refusal::Fenced)), 1));
    assert!(is_ended, "the session has ended: {found:?}");
    let found = fail_after(j, true, &[first, bit(31)]);
    assert!(matches!(found, (NotAsItShouldBe, 1)), "one request: {found:?}");
    let found = fail_after(j, false, &[bit(31)]);
    assert!(matches!(found, (NotAsItShouldBe, 1)), "one object: {found:?}");
    commit(j, 20).expect("a commit");
    let found = fail_after(j, false, &[first, bit(31), bit(20)]);
    assert!(matches!(found, (Journal(Protocol(_)), 1)), "the port has failed: {found:?}");
    assert_eq!(commits(j), before + 3);
}

fn a_refused_commit_is_judged_as_an_error_of_work(j: &mut Journal) {
    let (mut times, before) = (0, commits(j));
    let found = j.run(Durability::Lazy, |t| -> Result<(), Error> {
        times += 1;
        t.write(Address { block: 0, bit: 0 }, [0; 4096]);
        t.read(bit(100)).and(t.read(bit(30))).map(|_| ())
    });
    assert!(matches!(found, Err(Error::RefusedObject(Refusal::BadAddress, _))), "{found:?}");
    assert_eq!((times, commits(j)), (3, before + 1));
}

#[test]
fn each_fault_is_told_and_the_next_call_does_well() {
    let Ok(path) = std::env::var("JNL_FAULTY_SOCKET") else {
        return println!("not tried: JNL_FAULTY_SOCKET names no socket");
    };
    let mut j = Journal::connect(path).expect("connect");
    j.set_timeout(Some(Duration::from_secs(30)));
    look_at(&mut j, 0, |r| r.is_ok(), 1);
    look_at(&mut j, 1, |r| matches!(r, Err(Error::Lost(_))), 1);
    look_at(&mut j, 2, |r| matches!(r, Err(Error::Lost(_))), 0);
    look_at(&mut j, 3, |r| matches!(r, Err(Error::Lost(_))), 1);
    for number in [4, 5, 6, 9] {
        look_at(&mut j, number, |r| matches!(r, Err(Error::Protocol(_))), 1);
    }
    look_at(&mut j, 7, |r| matches!(r, Err(Error::Refused(Refusal::Fenced))), 0);
    look_at(&mut j, 8, |r| matches!(r, Err(Error::Unsure(_))), 1);
    look_at(&mut j, 11, |r| r.is_ok(), 1);
    look_at(&mut j, 12, |r| r.is_ok(), 1);
    look_at_run(&mut j, 1, |r| matches!(r, Err(Error::Lost(_))), 1);
    look_at_run(&mut j, 10, |r| r.is_ok(), 4);
    for number in 20..23 {
        commit(&mut j, number).expect("a commit");
        assert!(matches!(j.read(&[bit(number)]), Err(Error::Protocol(_))), "bit {number}");
        assert_eq!(j.read(&[bit(number)]).expect("a read"), [[1]]);
    }
    errors_of_work(&mut j);
    a_refused_commit_is_judged_as_an_error_of_work(&mut j);
    commit(&mut j, 13).expect("a commit");
    assert!(matches!(j.flush(), Err(Error::Protocol(_))));
    j.set_timeout(Some(Duration::from_secs(2)));
    look_at(&mut j, 14, |r| matches!(r, Err(Error::Lost(_))), 1);
    a_limit_is_of_the_whole_call(&mut j);
}

fn a_limit_is_of_the_whole_call(j: &mut Journal) {
    let begin = Instant::now();
    j.set_timeout(Some(Duration::from_millis(500)));
    match commit(j, 15) {
        Err(Error::Lost(error)) => assert_eq!(error.kind(), ErrorKind::TimedOut),
        other => panic!("an answer in pieces: {other:?}"),
    }
    assert!(begin.elapsed() < PATIENCE);
}

/// Why there is no port.
fn kind_of_no_port(found: Result<Journal, Error>) -> ErrorKind {
    match found {
        Err(Error::NoPort(error)) => error.kind(),
        other => panic!("{other:?}"),
    }
}

#[test]
fn no_port() {
    let kind = |path: &str| kind_of_no_port(Journal::connect(path));
    assert_eq!(kind("/nowhere/at/all"), ErrorKind::NotFound);
    assert_eq!(kind("/dev/null"), ErrorKind::ConnectionRefused);
    assert_eq!(kind(&"/a".repeat(99)), ErrorKind::InvalidInput);
}

#[test]
fn no_port_in_time() {
    let Ok(path) = std::env::var("JNL_FAULTY_SOCKET") else {
        return println!("not tried: JNL_FAULTY_SOCKET names no socket");
    };
    for kind in ["silent", "full"] {
        let (begin, limit) = (Instant::now(), Duration::from_millis(200));
        let found = Journal::connect_within(format!("{path}.{kind}"), limit);
        assert_eq!(kind_of_no_port(found), ErrorKind::TimedOut, "{kind}");
        assert!(limit <= begin.elapsed() && begin.elapsed() < PATIENCE, "{kind}");
    }
}
