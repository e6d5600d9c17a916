//! Pays 100 to Alice, moves 30 from Alice to Bob, and prints both balances, where there are 30.
//!
//! It uses the service of bank.disk at bank.sock, as docs/EMBEDDING.md begins one. That page says
//! how to build it.

use jnl::{Address, Durability, Error, Journal, Transaction};

const ALICE: Address = Address { block: 515, bit: 0 };
const BOB: Address = Address { block: 515, bit: 1024 };

fn balance(t: &mut Transaction, who: Address) -> Result<u64, Error> {
    let value = t.read(who)?;
    Ok(value[..8].iter().rev().fold(0, |money, byte| money << 8 | u64::from(*byte)))
}

fn set_balance(t: &mut Transaction, who: Address, money: u64) {
    let mut value = money.to_le_bytes().to_vec();
    value.resize(128, 0);
    t.write(who, value);
}

fn transfer(t: &mut Transaction) -> Result<(u64, u64), Error> {
    let (mut alice, mut bob) = (balance(t, ALICE)?, balance(t, BOB)?);
    if alice >= 30 {
        (alice, bob) = (alice - 30, bob + 30);
        set_balance(t, ALICE, alice);
        set_balance(t, BOB, bob);
    }
    Ok((alice, bob))
}

fn main() -> Result<(), Error> {
    let mut journal = Journal::connect("bank.sock")?;
    journal.run(Durability::Stable, |t| -> Result<(), Error> {
        let money = balance(t, ALICE)?;
        set_balance(t, ALICE, money + 100);
        Ok(())
    })?;
    let (alice, bob) = journal.run(Durability::Stable, transfer)?;
    println!("{alice} {bob}");
    Ok(())
}
