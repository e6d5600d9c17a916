//! Tests of the client against a running port. `JNL_SOCKET` names its socket; nothing is tried
//! without it. `JNL_TCP_PORT` names its TCP port, if it has one.

use jnl::{Address, Durability, Error, Journal, Receipt, Refusal, Transaction};
use std::sync::atomic::{AtomicBool, Ordering::Relaxed};
use std::thread;
use std::time::{Duration, Instant};

const ACCOUNTS: u32 = 8;
const OPENED_WITH: u64 = 100;

fn connect() -> Option<Journal> {
    match std::env::var("JNL_SOCKET") {
        Ok(path) => Some(Journal::connect(path).expect("connect")),
        Err(_) => {
            println!("not tried: JNL_SOCKET names no socket");
            None
        }
    }
}

fn at(block: u64, bit: u32) -> Address {
    Address { block, bit }
}

fn account(number: u32) -> Address {
    at(522, 1024 * number)
}

fn number(value: &[u8]) -> u64 {
    u64::from_le_bytes(value[..8].try_into().expect("eight bytes"))
}

fn value_of(number: u64) -> Vec<u8> {
    let mut value = vec![0; 128];
    value[..8].copy_from_slice(&number.to_le_bytes());
    value
}

fn commit_one(j: &mut Journal, address: Address, value: &[u8]) -> Result<(), Error> {
    let mut t = j.begin();
    t.write(address, value);
    t.commit(Durability::Lazy).map(|_| ())
}

#[test]
fn a_value_is_read_as_it_was_written() {
    let Some(mut j) = connect() else { return };
    let block: Vec<u8> = (0..4096).map(|i| i as u8).collect();
    let mut t = j.begin();
    t.write(at(533, 0), block.clone());
    t.write(at(514, 5), [1]);
    t.write(at(523, 1024), value_of(7));
    assert_eq!(number(&t.read(at(523, 1024)).expect("its own")), 7);
    let receipt = t.commit(Durability::Stable).expect("commit");
    let found = j.read(&[at(533, 0), at(514, 5), at(523, 1024)]).expect("read");
    assert_eq!(found, [block, vec![1], value_of(7)]);
    assert!(j.stat().expect("stat").stable >= receipt.commits);
}

#[test]
fn many_are_read_at_once() {
    let (Some(mut j), Some(mut other)) = (connect(), connect()) else { return };
    let (one, two, written) = (at(523, 4096), at(523, 5120), at(523, 6144));
    commit_one(&mut j, one, &value_of(1)).expect("a commit");
    let mut t = j.begin();
    t.write(written, value_of(3));
    assert!(t.read_many(&[]).expect("no objects").is_empty());
    let refused = t.read_many(&[one, at(3, 0)]);
    let (refused, wanted) = (refused.expect_err("no object"), at(3, 0));
    assert!(matches!(refused, Error::RefusedObject(Refusal::BadAddress, at) if at == wanted));
    let found = t.read_many(&[two, one, written, one]).expect("a read of many");
    assert_eq!(found[1..], [value_of(1), value_of(3), value_of(1)]);
    assert_eq!(found[0], t.read(two).expect("a read"));
    commit_one(&mut other, one, &value_of(2)).expect("the other");
    assert_eq!(t.read_many(&[one]).expect("what was read before"), [value_of(1)]);
    assert!(matches!(t.commit(Durability::Lazy), Err(Error::Conflict)));
}

#[test]
fn a_conflict_changes_nothing() {
    let (Some(mut j), Some(mut other)) = (connect(), connect()) else { return };
    let place = at(523, 2048);
    let mut late = j.begin();
    let found = number(&late.read(place).expect("read"));
    commit_one(&mut other, place, &value_of(found + 1)).expect("the other");
    late.write(place, value_of(9));
    assert!(matches!(late.commit(Durability::Lazy), Err(Error::Conflict)));
    assert_eq!(j.read(&[place]).expect("read"), [value_of(found + 1)]);
}

#[test]
fn run_leaves_its_receipt() {
    let Some(mut j) = connect() else { return };
    assert!(j.last_receipt().is_none());
    j.run(Durability::Stable, |t| -> Result<(), Error> {
        t.write(at(523, 7168), value_of(1));
        Ok(())
    })
    .expect("a run");
    let receipt = j.last_receipt().expect("its receipt");
    assert!((1..=j.stat().expect("stat").stable).contains(&receipt.commits));
}

#[test]
fn refusals() {
    let Some(mut j) = connect() else { return };
    for (address, value, wanted) in [
        (at(3, 0), vec![0; 4096], Refusal::BadAddress),
        (at(514, 0), vec![2], Refusal::BadSize),
        (at(515, 1024), vec![0; 127], Refusal::BadSize),
    ] {
        match commit_one(&mut j, address, &value) {
            Err(Error::RefusedObject(refusal, at)) => assert_eq!((refusal, at), (wanted, address)),
            other => panic!("{address:?}: {other:?}"),
        }
    }
}

/// What a commit of objects of one value is answered.
fn commit_of(j: &mut Journal, addresses: &[Address], value: &[u8]) -> Result<Receipt, Error> {
    let mut t = j.begin();
    addresses.iter().for_each(|a| t.write(*a, value));
    t.commit(Durability::Lazy)
}

#[test]
fn what_no_record_holds() {
    let Some(mut j) = connect() else { return };
    let many: Vec<_> = (8192..8192 + 4097).map(|bit| at(514, bit)).collect();
    let blocks: Vec<_> = (531..531 + 512).map(|block| at(block, 0)).collect();
    for found in [
        j.read(&many[..257]).map(|_| ()),
        j.begin().read_many(&many[..257]).map(|_| ()),
        commit_of(&mut j, &many, &[1]).map(|_| ()),
        commit_of(&mut j, &blocks, &[0; 4096]).map(|_| ()),
    ] {
        assert!(matches!(found, Err(Error::Refused(Refusal::TooLarge))), "{found:?}");
    }
    let long = commit_of(&mut j, &blocks[..1], &[0; 4097]);
    let long = long.expect_err("4097 bytes");
    assert!(
        matches!(long, Error::RefusedObject(Refusal::BadSize, at) if at == blocks[0]),
        "{long:?}"
    );
    assert_eq!(j.read(&many[..256]).expect("a read of 256").len(), 256);
}

#[test]
fn tcp() {
    let named = std::env::var("JNL_TCP_PORT").ok().and_then(|port| port.parse().ok());
    let (Some(mut j), Some(port)) = (connect(), named) else {
        return println!("not tried: JNL_TCP_PORT names no port");
    };
    let mut by_tcp = Journal::connect_port(port).expect("connect by TCP");
    commit_one(&mut by_tcp, at(524, 0), &value_of(3)).expect("commit by TCP");
    assert_eq!(j.read(&[at(524, 0)]).expect("read"), [value_of(3)]);
    assert!(matches!(by_tcp.stop(), Err(Error::Refused(Refusal::Forbidden))));
}

#[test]
fn work_that_gives_up_changes_nothing() {
    #[derive(Debug)]
    struct GivesUp;
    impl From<Error> for GivesUp {
        fn from(_: Error) -> Self {
            GivesUp
        }
    }
    let Some(mut j) = connect() else { return };
    let place = at(523, 3072);
    let before = j.read(&[place]).expect("read");
    let found = j.run(Durability::Stable, |t| {
        t.read(place)?;
        t.read(at(523, 4096))?;
        t.write(place, value_of(99));
        Err::<(), _>(GivesUp)
    });
    assert!(found.is_err());
    assert_eq!(j.read(&[place]).expect("read"), before);
}

fn transfer(t: &mut Transaction<'_>, from: Address, to: Address) -> Result<(), Error> {
    let (a, b) = (number(&t.read(from)?), number(&t.read(to)?));
    if from != to && a > 0 {
        t.write(from, value_of(a - 1));
        t.write(to, value_of(b + 1));
    }
    Ok(())
}

#[test]
fn transfers_keep_the_sum() {
    let Some(mut j) = connect() else { return };
    j.run(Durability::Stable, |t| -> Result<(), Error> {
        (0..ACCOUNTS).for_each(|i| t.write(account(i), value_of(OPENED_WITH)));
        Ok(())
    })
    .expect("the first transaction");
    let threads: Vec<_> = (0..4)
        .map(|seed| {
            thread::spawn(move || {
                let mut j = connect().expect("connect");
                for i in 0..50 {
                    let (a, b) = ((seed + i) % ACCOUNTS, (seed + 3 * i + 1) % ACCOUNTS);
                    let work = |t: &mut Transaction<'_>| transfer(t, account(a), account(b));
                    j.run(Durability::Lazy, work).expect("a transfer");
                }
            })
        })
        .collect();
    threads.into_iter().for_each(|thread| thread.join().expect("a thread"));
    let accounts: Vec<_> = (0..ACCOUNTS).map(account).collect();
    let sum: u64 = j.read(&accounts).expect("read").iter().map(|value| number(value)).sum();
    assert_eq!(sum, OPENED_WITH * u64::from(ACCOUNTS));
    j.flush().expect("flush");
}

/// Moves some of the sum of two objects again and again, until it is told to end.
fn move_some(places: [Address; 2], is_over: &AtomicBool) {
    let mut j = connect().expect("connect");
    let mut seed = 1_u64;
    while !is_over.load(Relaxed) {
        thread::sleep(Duration::from_micros(500));
        seed = seed.wrapping_mul(6_364_136_223_846_793_005).wrapping_add(1);
        let wanted = (seed >> 33) % 101;
        j.run(Durability::Lazy, |t| -> Result<(), Error> {
            t.read_many(&places)?;
            t.write(places[0], value_of(wanted));
            t.write(places[1], value_of(100 - wanted));
            Ok(())
        })
        .expect("a move");
    }
}

#[derive(Debug)]
#[allow(dead_code)]
enum Fault {
    Sum(u64, u64),
    Journal(Error),
}

impl From<Error> for Fault {
    fn from(error: Error) -> Self {
        Fault::Journal(error)
    }
}

#[test]
fn run_answers_no_error_that_two_moments_caused() {
    let Some(mut j) = connect() else { return };
    let (places, is_over) = ([at(524, 2048), at(524, 3072)], AtomicBool::new(false));
    let ends = Instant::now() + Duration::from_secs(30);
    places.iter().for_each(|a| commit_one(&mut j, *a, &value_of(50)).expect("a commit"));
    let fault = thread::scope(|scope| {
        (0..2).for_each(|_| drop(scope.spawn(|| move_some(places, &is_over))));
        let runs = (0..5000).take_while(|_| Instant::now() < ends);
        let fault = runs
            .map(|_| {
                j.run(Durability::Lazy, |t| {
                    let (a, b) = (number(&t.read(places[0])?), number(&t.read(places[1])?));
                    if a + b == 100 {
                        Ok(())
                    } else {
                        Err(Fault::Sum(a, b))
                    }
                })
            })
            .find(Result::is_err);
        is_over.store(true, Relaxed);
        fault
    });
    assert!(fault.is_none(), "{fault:?}");
}
