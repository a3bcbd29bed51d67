//! `count [--demand] LOG...`: runs the second program on the logs and prints
//! what occurred in them. With `--demand` it fails where something that a run
//! must contain was missed, or a bound was broken.

mod bounds;
mod four;
mod lifts;
mod short;

use second::answer::{answer_block, Answer};
use second::entries::{read_block, Entry};
use second::pots::{by_levels, Shares};
use second::table::Table;
use second::text::{sheet, Sheet, ENTRY_KEYS, LF, SHEET_KEYS};
use std::collections::BTreeMap;

/// How often each named thing occurred.
#[derive(Default)]
pub struct Counts(BTreeMap<String, u64>);

/// What a run of all profiles must contain, besides the codes 0 to 11.
const DEMANDED: [&str; 33] = [
    "pots 9",
    "unclaimed chips",
    "seat changed hands inside a hand",
    "odd units shared",
    "no fee before a board card",
    "fee rounded down to the step",
    "capped fee rounded down again",
    "two short lifts in a row",
    "short lift over one who checked",
    "short lift over one who called",
    "short lift over one who has not acted",
    "short lift over one who raised",
    "short lift over the big blind's option",
    "after a short lift: raise by one who has not acted",
    "after a short lift: raise by the big blind, its option kept",
    "after a short lift: raise by one who acted before the last full lift only",
    "after a short lift: refused to one who checked",
    "after a short lift: refused to one who called",
    "after a short lift: refused to the last raiser",
    "after a short lift: refused a whole stack",
    "after a short lift: refused where short lifts add up to a full one",
    "after a short lift: call by one who may not raise",
    "four: second pair",
    "four: repeat of the own pair",
    "four: third hole",
    "four: third hole with a repeat",
    "four: settle with one pair",
    "four: showdown",
    "short: hole with a card below seven",
    "short: board with a card below seven",
    "short: showdown",
    "short: flush against full house",
    "short: lowest straight",
];

impl Counts {
    pub fn add(&mut self, name: impl Into<String>) {
        *self.0.entry(name.into()).or_default() += 1;
    }

    fn missed(&self) -> Vec<String> {
        let codes = (0..=11).map(|code| format!("code {code:2}"));
        let demanded = codes.chain(DEMANDED.map(String::from)).chain(bounds::DEMANDED.map(String::from));
        let broken = self.0.keys().filter(|name| name.starts_with(bounds::BROKEN)).cloned();
        demanded.filter(|name| !self.0.contains_key(name)).chain(broken).collect()
    }
}

fn main() {
    let mut logs: Vec<String> = std::env::args().skip(1).collect();
    let demand = logs.first().is_some_and(|first| first == "--demand");
    logs.drain(..usize::from(demand));
    let mut counts = Counts::default();
    for log in &logs {
        let bytes = std::fs::read(log).unwrap_or_else(|error| panic!("{log}: {error}"));
        count_log(&bytes, &mut counts);
    }
    for (name, count) in &counts.0 {
        println!("{count:10}  {name}");
    }
    if demand && !counts.missed().is_empty() {
        println!("missed: {}", counts.missed().join(", "));
        std::process::exit(1);
    }
}

/// The bytes up to and with that LF, or all there are; and what follows.
fn split_after_line(bytes: &[u8], lines: usize) -> (&[u8], &[u8]) {
    let ends = bytes.iter().enumerate().filter(|(_, byte)| **byte == LF);
    let end = ends.map(|(place, _)| place + 1).nth(lines - 1);
    bytes.split_at(end.unwrap_or(bytes.len()))
}

fn count_log(log: &[u8], counts: &mut Counts) {
    counts.add("logs");
    let (first, mut rest) = split_after_line(log, SHEET_KEYS.len());
    let Some(sheet) = sheet(first) else { return counts.add("code 11") };
    let mut table = Table::new(sheet, by_levels);
    let mut turns = bounds::Turns::default();
    while !rest.is_empty() {
        let block;
        (block, rest) = split_after_line(rest, ENTRY_KEYS.len());
        let before = table.clone();
        let answer = answer_block(&mut table, block);
        count_answer(&answer, counts);
        let written = read_block(block);
        if let Some(written) = &written {
            short::count_refused(&sheet, written, counts);
        }
        let entry = written.and_then(|written| written.entry(&sheet));
        if let Some(entry) = entry {
            lifts::count(&before, &entry, answer.code, counts);
            four::count(&before, &entry, answer.code, counts);
            short::count(&before, &entry, answer.code, counts);
            if answer.code == 0 {
                count_taken(&before, &entry, &answer, counts);
                turns.count(&entry, &table, counts);
            }
        }
    }
}

fn count_answer(answer: &Answer, counts: &mut Counts) {
    counts.add("entries");
    counts.add(format!("code {:2}", answer.code));
    counts.add(format!("pots {}", answer.pots.pots.len()));
    bounds::count_room(answer, counts);
}

fn count_taken(before: &Table, entry: &Entry, answer: &Answer, counts: &mut Counts) {
    let shown = format!("{entry:?}");
    let kind = shown.split(' ').next().unwrap_or_default();
    counts.add(format!("taken {}", kind.to_lowercase()));
    match *entry {
        Entry::Sit { seat, .. } if before.dealt(seat).is_some() => {
            counts.add("seat changed hands inside a hand");
        }
        Entry::Dead { seat } if seat != before.turn() => counts.add("dead out of turn"),
        Entry::Settle => count_settle(before, answer, counts),
        _ => (),
    }
}

fn count_settle(before: &Table, answer: &Answer, counts: &mut Counts) {
    let (Some(settlement), Some(shares)) = (&answer.settlement, before.shares()) else { return };
    if settlement.unclaimed > 0 {
        counts.add("unclaimed chips");
    }
    if settlement.fee > 0 {
        counts.add("fee taken");
    }
    count_fees(before, &shares, counts);
    for (amount, winners) in shares.divided.iter().filter(|(_, winners)| *winners > 1) {
        counts.add(if amount % winners == 0 { "pot shared evenly" } else { "odd units shared" });
    }
}

/// What the board, the step and the cap took off the fee of each pot.
fn count_fees(before: &Table, shares: &Shares, counts: &mut Counts) {
    let Sheet { rate, cap, .. } = before.sheet;
    let mut left = cap;
    for (pot, (rest, _)) in before.pots().pots.iter().zip(&shares.divided) {
        let (plain, fee) = (pot.amount * rate / 1000, pot.amount - rest);
        if plain > 0 && before.board_count() == 0 {
            counts.add("no fee before a board card");
        } else if fee > 0 && fee < plain && plain <= left {
            counts.add("fee rounded down to the step");
        } else if fee > 0 && fee < left && left < plain {
            counts.add("capped fee rounded down again");
        }
        left -= fee;
    }
}
