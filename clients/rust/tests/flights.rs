//! Tests of many commits in flight, against a running port and against one with faults.
//! `JNL_SOCKET` and `JNL_FAULTY_SOCKET` name their sockets; nothing is tried without them.

use jnl::{Address, Answer, Durability, Error, Journal, Receipt, Refusal, MAX_IN_FLIGHT};
use std::ops::{Range, RangeInclusive};
use std::sync::mpsc::{channel, RecvTimeoutError};
use std::sync::Mutex;
use std::thread;
use std::time::Duration;

const MANY: u64 = 10_000;
const BEFORE: u64 = 20;
const AFTER: u64 = 30;
const FREE_BIT: u32 = 204;
const LIMIT: Duration = Duration::from_secs(120);

type IsWanted = fn(&Result<Receipt, Error>) -> bool;

/// Commits are counted, so one test runs at a time.
static ONE_AT_A_TIME: Mutex<()> = Mutex::new(());

/// Runs work with a journal, but not for ever: port and client may wait for each other.
fn with_journal(name: &str, work: impl FnOnce(&mut Journal) + Send + 'static) {
    let Ok(path) = std::env::var(name) else {
        return println!("not tried: {name} names no socket");
    };
    let _turn = ONE_AT_A_TIME.lock().unwrap_or_else(|failed| failed.into_inner());
    let (sender, receiver) = channel();
    let worker = thread::spawn(move || {
        work(&mut Journal::connect(path).expect("connect"));
        sender.send(()).expect("the test waits");
    });
    if receiver.recv_timeout(LIMIT) == Err(RecvTimeoutError::Timeout) {
        panic!("port and client wait for each other");
    }
    worker.join().expect("the work does well");
}

fn record(bit: u32) -> Address {
    Address { block: 523, bit }
}

fn value_of(number: u64) -> Vec<u8> {
    let mut value = vec![0; 128];
    value[..8].copy_from_slice(&number.to_le_bytes());
    value
}

fn submit(j: &mut Journal, address: Address, value: Vec<u8>, tag: u64) -> Result<(), Error> {
    let mut t = j.begin();
    t.write(address, value);
    t.submit(Durability::Lazy, tag)
}

fn submit_bit(j: &mut Journal, bit: u32, tag: u64) -> Result<(), Error> {
    submit(j, Address { block: 514, bit }, vec![1], tag)
}

/// Takes an answer, and wants it to be this one's.
fn take(j: &mut Journal, tag: u64, is_wanted: IsWanted) -> u64 {
    let Answer { tag: found, result } = j.next_answer().expect("an answer");
    assert_eq!(found, tag);
    assert!(is_wanted(&result), "{tag}: {result:?}");
    result.map_or(0, |receipt| receipt.commits)
}

fn take_done(j: &mut Journal, tags: Range<u64>) {
    for tag in tags {
        take(j, tag, is_done);
    }
}

fn is_done(found: &Result<Receipt, Error>) -> bool {
    found.is_ok()
}

fn is_lost(found: &Result<Receipt, Error>) -> bool {
    matches!(found, Err(Error::Lost(_)))
}

fn is_of_protocol(found: &Result<Receipt, Error>) -> bool {
    matches!(found, Err(Error::Protocol(_)))
}

fn is_fenced(found: &Result<Receipt, Error>) -> bool {
    matches!(found, Err(Error::Refused(Refusal::Fenced)))
}

fn commits(j: &mut Journal) -> u64 {
    j.stat().expect("the next call does well").commits
}

#[test]
fn answers_come_in_order() {
    with_journal("JNL_SOCKET", |j| {
        assert!(j.next_answer().is_none());
        let before = commits(j);
        for i in 0..MANY {
            submit(j, record(0), value_of(i), 3 * i).expect("submit");
        }
        assert_eq!(j.in_flight() as u64, MANY);
        for i in 0..MANY {
            assert_eq!(take(j, 3 * i, is_done), before + i + 1);
        }
        assert!(j.next_answer().is_none());
    });
}

#[test]
fn a_refusal_is_of_one_alone() {
    with_journal("JNL_SOCKET", |j| {
        let before = commits(j);
        submit(j, record(2048), value_of(before + 1), 1).expect("submit");
        let mut too_large = j.begin();
        (531..=659).for_each(|block| too_large.write(Address { block, bit: 0 }, vec![0; 4096]));
        too_large.submit(Durability::Lazy, 2).expect("submit");
        let mut late = j.begin();
        late.read(record(2048)).expect("read");
        late.write(record(2048), value_of(before + 9));
        late.submit(Durability::Lazy, 3).expect("submit");
        submit(j, Address { block: 531, bit: 0 }, vec![0; 5000], 4).expect_err("5000 bytes");
        submit(j, record(2048), value_of(before + 2), 5).expect("submit");
        take(j, 1, is_done);
        take(j, 2, |found| matches!(found, Err(Error::Refused(Refusal::TooLarge))));
        take(j, 3, is_done);
        assert_eq!(take(j, 5, is_done), before + 3);
    });
}

#[test]
fn a_conflict_is_told_of_its_commit() {
    with_journal("JNL_SOCKET", |j| {
        let other = std::env::var("JNL_SOCKET").expect("its name");
        let mut other = Journal::connect(other).expect("connect");
        let now = commits(j);
        let mut late = j.begin();
        late.read(record(3072)).expect("read");
        submit(&mut other, record(3072), value_of(now + 1), 0).expect("submit");
        take(&mut other, 0, is_done);
        late.submit(Durability::Lazy, 1).expect("submit");
        submit(j, record(4096), value_of(1), 2).expect("submit");
        take(j, 1, |found| matches!(found, Err(Error::Conflict)));
        take(j, 2, is_done);
    });
}

#[test]
fn other_calls_are_answered_after_those_in_flight() {
    with_journal("JNL_SOCKET", |j| {
        for i in 0..40 {
            submit(j, record(5120), value_of(i + 1), i).expect("submit");
            if i % 8 == 0 {
                assert_eq!(j.read(&[record(5120)]).expect("read"), [value_of(i + 1)]);
                j.flush().expect("flush");
            }
        }
        let tags: Vec<u64> = j.answers().filter(|a| is_done(&a.result)).map(|a| a.tag).collect();
        assert_eq!(tags, (0..40).collect::<Vec<_>>());
        assert_eq!(j.in_flight(), 0);
    });
}

#[test]
fn long_records() {
    with_journal("JNL_SOCKET", |j| {
        for i in 0..40 {
            let mut t = j.begin();
            for block in 540..540 + if i % 3 == 0 { 100 } else { 1 } {
                t.write(Address { block, bit: 0 }, vec![i as u8 + 1; 4096]);
            }
            t.submit(Durability::Lazy, i).expect("submit");
        }
        for i in 0..40 {
            take(j, i, is_done);
        }
        let last = Address { block: 639, bit: 0 };
        assert_eq!(j.read(&[last]).expect("read"), [vec![40; 4096]]);
    });
}

#[test]
fn as_many_as_may_be() {
    with_journal("JNL_SOCKET", |j| {
        for i in 0..MAX_IN_FLIGHT as u64 {
            j.begin().submit(Durability::Lazy, i).expect("submit");
        }
        assert!(matches!(j.begin().submit(Durability::Lazy, 0), Err(Error::Full)));
        take(j, 0, is_done);
        j.begin().submit(Durability::Lazy, MAX_IN_FLIGHT as u64).expect("submit");
        for i in 1..=MAX_IN_FLIGHT as u64 {
            take(j, i, is_done);
        }
    });
}

#[test]
fn what_is_held_back_is_pushed() {
    with_journal("JNL_SOCKET", |j| {
        let path = std::env::var("JNL_SOCKET").expect("its name");
        let mut other = Journal::connect(path).expect("connect");
        submit(j, record(6144), value_of(1), 1).expect("submit");
        let before = other.read(&[record(6144)]).expect("read");
        submit(j, record(6144), value_of(u64::from(before[0][0]) + 1), 2).expect("submit");
        j.push();
        while other.read(&[record(6144)]).expect("read") == before {
            thread::sleep(Duration::from_millis(1));
        }
        take(j, 1, is_done);
        take(j, 2, is_done);
    });
}

/// The commits once a connection that this client has closed has none under way any more.
fn commits_at_rest(j: &mut Journal) -> u64 {
    let (mut last, mut same) = (commits(j), 0);
    while same < 3 {
        thread::sleep(Duration::from_millis(20));
        let now = commits(j);
        same = if now == last { same + 1 } else { 0 };
        last = now;
    }
    last
}

/// While answers of a lost connection are not taken.
fn nothing_is_sent(j: &mut Journal) {
    assert!(matches!(submit_bit(j, FREE_BIT, 0), Err(Error::Lost(_))));
    assert!(matches!(j.flush(), Err(Error::Lost(_))));
}

/// Commits before one that meets a fault, that one, and commits after it. So many are done, and
/// those are answered so that the fault meets and that come later.
fn fault(j: &mut Journal, bit: u32, met: IsWanted, later: IsWanted, done: RangeInclusive<u64>) {
    let before = commits(j);
    for i in 0..=BEFORE + AFTER {
        submit_bit(j, if i == BEFORE { bit } else { FREE_BIT }, i).expect("submit");
    }
    take_done(j, 0..BEFORE);
    take(j, BEFORE, met);
    for i in BEFORE + 1..=BEFORE + AFTER {
        let Answer { tag, result } = j.next_answer().expect("an answer");
        assert!(tag == i && later(&result), "bit {bit}: {tag} for {i}, {result:?}");
        if is_lost(&result) && i < BEFORE + AFTER {
            nothing_is_sent(j);
        }
    }
    assert!(j.next_answer().is_none());
    let found = commits_at_rest(j) - before;
    assert!(done.contains(&found), "bit {bit}: {found} commits");
}

#[test]
fn a_loss_is_told_of_each_in_order() {
    with_journal("JNL_FAULTY_SOCKET", |j| {
        let (one_more, all) = (BEFORE + 1..=BEFORE + 1, BEFORE + 1 + AFTER..=BEFORE + 1 + AFTER);
        fault(j, 0, is_done, is_lost, one_more.clone());
        fault(j, 1, is_lost, is_lost, one_more.clone());
        fault(j, 2, is_lost, is_lost, BEFORE..=BEFORE);
        fault(j, 3, is_lost, is_lost, one_more);
        for bit in [4, 5, 6, 9] {
            fault(j, bit, is_of_protocol, is_lost, BEFORE + 1..=BEFORE + 1 + AFTER);
        }
        fault(j, 7, is_fenced, is_fenced, BEFORE..=BEFORE);
        fault(j, 8, |found| matches!(found, Err(Error::Unsure(_))), is_done, all.clone());
        fault(j, 11, is_done, is_done, all);
    });
}

#[test]
fn a_loss_while_more_is_sent() {
    with_journal("JNL_FAULTY_SOCKET", |j| {
        let before = commits(j);
        submit_bit(j, FREE_BIT, 0).expect("submit");
        submit_bit(j, 1, 1).expect("submit");
        let submitted =
            (2..MANY).take_while(|i| submit_bit(j, FREE_BIT, *i).is_ok()).count() as u64;
        assert!(submitted < MANY - 2);
        take(j, 0, is_done);
        for i in 1..submitted + 2 {
            take(j, i, is_lost);
        }
        assert!(j.next_answer().is_none());
        assert_eq!(commits(j), before + 2);
    });
}

#[test]
fn another_call_is_lost() {
    with_journal("JNL_FAULTY_SOCKET", |j| {
        for i in 0..BEFORE {
            submit_bit(j, if i == BEFORE - 1 { 0 } else { FREE_BIT }, i).expect("submit");
        }
        assert!(matches!(j.stat(), Err(Error::Lost(_))));
        commits(j); // none in flight was lost, so the next call goes on
        take_done(j, 0..BEFORE);
    });
}

#[test]
fn another_call_after_an_answer_in_pieces() {
    with_journal("JNL_FAULTY_SOCKET", |j| {
        let before = commits(j);
        submit_bit(j, 11, 1).expect("submit");
        assert_eq!(commits(j), before + 1);
        take(j, 1, is_done);
    });
}

#[test]
fn a_limit_of_time() {
    with_journal("JNL_FAULTY_SOCKET", |j| {
        let before = commits(j);
        j.set_timeout(Some(Duration::from_secs(3)));
        for (i, bit) in [FREE_BIT, 14, 14].into_iter().enumerate() {
            submit_bit(j, bit, i as u64).expect("submit");
        }
        take(j, 0, is_done);
        for i in 1..3 {
            take(
                j,
                i,
                |found| matches!(found, Err(Error::Lost(e)) if e.kind() == std::io::ErrorKind::TimedOut),
            );
        }
        assert_eq!(commits(j), before + 3);
    });
}
