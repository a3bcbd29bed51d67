//! "The answer block".

use crate::entries::{read_block, Entry};
use crate::pots::Pots;
use crate::table::{Settlement, Table};
use std::io::Write;

#[derive(Clone, Debug)]
pub struct Answer {
    pub n: u64,
    pub code: u8,
    pub turn: usize,
    pub mark: u64,
    pub pots: Pots,
    pub settlement: Option<Settlement>,
}

/// Reads one block, takes or refuses it, and says how the table stands then.
pub fn answer_block(table: &mut Table, block: &[u8]) -> Answer {
    let Some(written) = read_block(block) else { return answer(table, 0, Err(1)) };
    let entry = written.entry(&table.sheet);
    let outcome = entry.map_or(Err(2), |entry: Entry| table.take(written.n, &entry));
    answer(table, written.n, outcome)
}

fn answer(table: &Table, n: u64, outcome: Result<Option<Settlement>, u8>) -> Answer {
    Answer {
        n,
        code: *outcome.as_ref().err().unwrap_or(&0),
        turn: table.turn(),
        mark: table.hand.as_ref().map_or(0, |hand| hand.mark),
        pots: table.pots(),
        settlement: outcome.ok().flatten(),
    }
}

impl Answer {
    pub fn write(&self, out: &mut Vec<u8>) {
        line(out, "n", self.n);
        line(out, "code", u64::from(self.code));
        line(out, "turn", self.turn as u64);
        line(out, "mark", self.mark);
        self.pots.pots.iter().for_each(|pot| line(out, "pot", pot.amount));
        line(out, "back", self.pots.back());
        if let Some(settlement) = &self.settlement {
            settlement.write(out);
        }
    }
}

impl Settlement {
    fn write(&self, out: &mut Vec<u8>) {
        line(out, "fee", self.fee);
        for (sitting, paid) in &self.rows {
            line(out, "sitting", *sitting);
            line(out, "paid", *paid);
        }
        line(out, "unclaimed", self.unclaimed);
    }
}

pub fn line(out: &mut Vec<u8>, key: &str, value: u64) {
    writeln!(out, "{key}={value}").expect("a Vec takes every byte");
}
