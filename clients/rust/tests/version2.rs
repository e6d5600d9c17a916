//! Tests of what version 2 of the protocol has. `JNL_SOCKET` names a port's socket,
//! `JNL_FAULTY_SOCKET` that of `clients/tests/faulty_port.py`, which lists the faults, and
//! `JNL_OLD_SOCKET` that of a port of version 1. Nothing is tried without them.

use jnl::{Address, Durability, Error, Journal, Pool, Refusal};
use std::sync::Mutex;
use std::time::Duration;
use std::{env, thread};

/// The tests that count the commits of the port with faults are run one after another.
static TURN: Mutex<()> = Mutex::new(());

/// A bit whose read has the port end the connection, and be another opening from then on.
const RESTARTS: u32 = 34;
/// Bits of the tests of this file.
const FIRST: u32 = 20_480;

fn bit(number: u32) -> Address {
    Address { block: 514, bit: number }
}

fn connect(name: &str) -> Option<Journal> {
    let path = env::var_os(name)?;
    Some(Journal::connect(path).expect("a port"))
}

fn put(journal: &mut Journal, number: u32, durability: Durability) -> Result<(), Error> {
    let mut t = journal.begin();
    t.write(bit(number), [1]);
    t.commit(durability).map(|_| ())
}

fn restart(journal: &mut Journal) {
    journal.read(&[bit(RESTARTS)]).expect("a read");
    thread::sleep(Duration::from_millis(100));
}

#[test]
fn lazy_commits_may_be_gone() {
    let _turn = TURN.lock();
    let Some(mut journal) = connect("JNL_FAULTY_SOCKET") else { return };
    put(&mut journal, 200, Durability::Lazy).expect("a commit");
    restart(&mut journal);
    assert!(matches!(journal.flush(), Err(Error::Restarted)));
    let commits = journal.stat().expect("a stat").commits;
    put(&mut journal, 200, Durability::Lazy).expect("a commit");
    restart(&mut journal);
    let told = put(&mut journal, 201, Durability::Lazy);
    assert!(matches!(told, Err(Error::Restarted)), "{told:?}");
    assert_eq!(journal.stat().expect("a stat").commits, commits + 1);
    assert!(matches!(put(&mut journal, 8, Durability::Stable), Err(Error::Unsure(_))));
    restart(&mut journal);
    assert!(matches!(journal.stat(), Err(Error::Restarted)));
}

#[test]
fn stable_commits_are_there() {
    let _turn = TURN.lock();
    let Some(mut journal) = connect("JNL_FAULTY_SOCKET") else { return };
    let ways: [fn(&mut Journal) -> Result<(), Error>; 3] =
        [|j| j.flush().map(|_| ()), |j| j.stat().map(|_| ()), |j| put(j, 203, Durability::Stable)];
    for make_stable in ways {
        put(&mut journal, 200, Durability::Lazy).expect("a commit");
        make_stable(&mut journal).expect("it is stable");
        restart(&mut journal);
        journal.flush().expect("nothing was lost");
    }
}

#[test]
fn run_hands_it_on() {
    let _turn = TURN.lock();
    let Some(mut journal) = connect("JNL_FAULTY_SOCKET") else { return };
    let mut tries = 0;
    put(&mut journal, 200, Durability::Lazy).expect("a commit");
    restart(&mut journal);
    let found: Result<(), Error> = journal.run(Durability::Lazy, |t| {
        tries += 1;
        t.write(bit(204), [1]);
        Ok(())
    });
    assert!(matches!(found, Err(Error::Restarted)));
    assert_eq!(tries, 1);
}

#[test]
fn commits_in_flight() {
    let _turn = TURN.lock();
    let Some(mut journal) = connect("JNL_FAULTY_SOCKET") else { return };
    let submit = |journal: &mut Journal, number, tag| {
        let mut t = journal.begin();
        t.write(bit(number), [1]);
        t.submit(Durability::Lazy, tag)
    };
    submit(&mut journal, 200, 1).expect("a submit");
    assert!(journal.answers().all(|answer| answer.result.is_ok()));
    restart(&mut journal);
    assert!(matches!(submit(&mut journal, 200, 2), Err(Error::Restarted)));
    assert_eq!(journal.in_flight(), 0);
    submit(&mut journal, 200, 3).expect("a submit");
    assert!(journal.answers().all(|answer| answer.result.is_ok()));
    restart(&mut connect("JNL_FAULTY_SOCKET").expect("another connection"));
    submit(&mut journal, 1, 4).expect("a submit that is lost");
    assert!(journal.answers().all(|answer| matches!(answer.result, Err(Error::Lost(_)))));
    assert!(matches!(journal.flush(), Err(Error::Restarted)));
    journal.flush().expect("the next flush");
}

#[test]
fn scans_and_pools() {
    let Some(mut journal) = connect("JNL_SOCKET") else { return };
    let clear = |t: &mut jnl::Transaction| -> Result<(), Error> {
        (FIRST..FIRST + 64).for_each(|number| t.write(bit(number), [0]));
        Ok(())
    };
    journal.run(Durability::Lazy, clear).expect("cleared bits");
    put(&mut journal, FIRST + 2, Durability::Lazy).expect("a commit");
    let found = journal.scan(514, FIRST, false, 3).expect("a scan");
    assert_eq!(found, [FIRST, FIRST + 1, FIRST + 3]);
    let all = journal.scan(514, 0, false, u32::MAX).expect("a scan").len();
    assert_eq!(all + journal.scan(514, 0, true, u32::MAX).expect("a scan").len(), 32_768);
    for (block, first) in [(514, 32_768), (515, 0), (3, 0)] {
        let refused = journal.scan(block, first, false, 1);
        assert!(matches!(refused, Err(Error::Refused(Refusal::BadAddress))));
    }
    let mut pool = Pool::new(514, FIRST..FIRST + 64);
    let mut taken: Vec<u32> =
        (0..63).map(|_| journal.run(Durability::Lazy, |t| pool.take(t)).expect("a take")).collect();
    taken.sort_unstable();
    taken.dedup();
    assert!(taken.len() == 63 && !taken.contains(&(FIRST + 2)));
    let none = journal.run(Durability::Lazy, |t| pool.take(t));
    assert!(matches!(none, Err(Error::NoneFree)));
    journal.run(Durability::Lazy, |t| pool.give(t, FIRST + 9)).expect("a give");
    assert_eq!(journal.run(Durability::Lazy, |t| pool.take(t)).expect("a take"), FIRST + 9);
}

#[test]
fn counters_and_regions() {
    let Some(mut journal) = connect("JNL_SOCKET") else { return };
    let counters = journal.counters().expect("counters");
    assert!(counters[&1] >= counters[&2]);
    let firsts: Vec<u64> = journal.disk().regions.iter().map(|region| region.first).collect();
    assert_eq!(firsts, [513, 514, 515, 531]);
    let refused = journal.read(&[Address { block: 515, bit: 1 }]).expect_err("no object");
    assert_eq!(refused.refusal(), Some(Refusal::BadAddress));
    assert!(matches!(refused, Error::RefusedObject(_, Address { block: 515, bit: 1 })));
}

#[test]
fn a_port_of_version_1() {
    let Some(mut journal) = connect("JNL_OLD_SOCKET") else { return };
    assert_eq!(journal.disk().version, 1);
    put(&mut journal, FIRST, Durability::Lazy).expect("a commit");
    let old = Err(Refusal::OtherVersion);
    let refusal = |error| match error {
        Error::Refused(refusal) => refusal,
        other => panic!("{other:?}"),
    };
    assert_eq!(journal.counters().map(|_| ()).map_err(refusal), old);
    assert_eq!(journal.scan(514, 0, false, 1).map(|_| ()).map_err(refusal), old);
    let refused = journal.read(&[Address { block: 3, bit: 0 }]);
    assert!(matches!(refused, Err(Error::Refused(Refusal::BadAddress))));
    journal.flush().expect("a flush");
}
