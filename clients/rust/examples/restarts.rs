//! `restarts PATH NUMBER` does what the lines of its input say, over one connection, and prints a
//! line for each: `lazy` and `stable` count up an object of this number, by a commit that does not
//! wait or waits, and print `ok COUNT`. `flush` and `stat` print `ok`. A call that tells that the
//! service was started again prints `restarted`, and another that fails prints its error.

use jnl::{Address, Durability, Error, Journal};
use std::{env, io};

struct Counter {
    journal: Journal,
    at: Address,
    count: u64,
}

impl Counter {
    fn count_up(&mut self, durability: Durability) -> Result<String, Error> {
        let mut value = (self.count + 1).to_le_bytes().to_vec();
        value.resize(128, 0);
        let mut t = self.journal.begin();
        t.write(self.at, value);
        t.commit(durability)?;
        self.count += 1;
        Ok(format!("ok {}", self.count))
    }

    fn told(&mut self, line: &str) -> String {
        let ok = || "ok".to_string();
        let told = match line {
            "lazy" => self.count_up(Durability::Lazy),
            "stable" => self.count_up(Durability::Stable),
            "stat" => self.journal.stat().map(|_| ok()),
            _ => self.journal.flush().map(|_| ok()),
        };
        told.unwrap_or_else(|error| match error {
            Error::Restarted => "restarted".to_string(),
            other => other.to_string(),
        })
    }
}

fn main() -> Result<(), Box<dyn std::error::Error>> {
    let words: Vec<String> = env::args().collect();
    let [_, path, number] = &words[..] else { return Err("usage: restarts PATH NUMBER".into()) };
    let at = Address { block: 527, bit: 1024 * number.parse::<u32>()? };
    let mut counter = Counter { journal: Journal::connect(path)?, at, count: 0 };
    for line in io::stdin().lines() {
        println!("{}", counter.told(&line?));
    }
    Ok(())
}
