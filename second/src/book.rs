//! Request No. 12, from REQUESTS.md alone: the log is a vector of entries, a correction replaces one of them and plays all of them again.

use crate::answer::{line, Answer};
use crate::entries::{read_block, Written};
use crate::pots::PotRule;
use crate::table::{Settlement, Table};
use crate::text::{number, sheet, word, Sheet, ENTRY_KEYS, LF, SHEET_KEYS};

/// That many entries are stored and no more.
pub const MOST: usize = 4_096;
const SIX: [&str; 6] = ["hole", "fold", "check", "call", "wager", "board"];
const LONGEST_LINE: usize = 32;

/// A stored entry: its word and its numbers. Its n is its place, counted from 1.
#[derive(Clone, Debug, PartialEq)]
pub struct Stored {
    pub word: String,
    pub seat: u64,
    pub a: u64,
    pub b: u64,
}

impl Stored {
    fn of(written: &Written<'_>) -> Stored {
        Stored { word: written.word.to_string(), seat: written.seat, a: written.a, b: written.b }
    }

    pub fn text(&self, n: usize) -> String {
        format!("n={n}\ndo={}\nseat={}\na={}\nb={}\n", self.word, self.seat, self.a, self.b)
    }
}

/// The table with its log.
#[derive(Clone)]
pub struct Book {
    pub sheet: Sheet,
    pub table: Table,
    pub stored: Vec<Stored>,
    rule: PotRule,
}

impl Book {
    pub fn new(sheet: Sheet, rule: PotRule) -> Book {
        Book { sheet, table: Table::new(sheet, rule), stored: Vec::new(), rule }
    }

    /// The answer to a block of five lines, whole or cut short by the end of the input.
    pub fn answer(&mut self, block: &[u8]) -> Answer {
        match corrected_number(block) {
            Some(n) => {
                let code = self.correct(n, block);
                self.say(n, code, None)
            }
            None => self.enter(block),
        }
    }

    fn enter(&mut self, block: &[u8]) -> Answer {
        let Some(written) = read_block(block) else { return self.say(0, 1, None) };
        let n = written.n;
        let Some(entry) = written.entry(&self.sheet) else { return self.say(n, 2, None) };
        if n != self.table.taken + 1 {
            return self.say(n, 3, None);
        }
        if self.stored.len() >= MOST {
            return self.say(n, 15, None);
        }
        match self.table.take(n, &entry) {
            Ok(settlement) => {
                self.stored.push(Stored::of(&written));
                self.say(n, 0, settlement)
            }
            Err(code) => self.say(n, code, None),
        }
    }

    /// The code of a correction; where it is 0 the log is played again.
    fn correct(&mut self, n: u64, block: &[u8]) -> u8 {
        let lines: Vec<&[u8]> = block.split(|byte| *byte == LF).collect();
        let stored = (1..=self.stored.len() as u64).contains(&n);
        if !stored || !is_one_of_six(&self.stored[n as usize - 1].word) {
            return 2;
        }
        if value(lines[1], "do").and_then(word).is_some_and(|w| !is_one_of_six(w)) {
            return 2;
        }
        let as_entry = [format!("n={n}\n").as_bytes(), &block[lines[0].len() + 1..]].concat();
        let Some(written) = read_block(&as_entry) else { return 13 };
        let mut log = self.stored.clone();
        log[n as usize - 1] = Stored::of(&written);
        match self.played(&log) {
            Some(table) => {
                (self.table, self.stored) = (table, log);
                0
            }
            None => 13,
        }
    }

    /// The table after all of these entries, if each is taken.
    fn played(&self, log: &[Stored]) -> Option<Table> {
        let mut table = Table::new(self.sheet, self.rule);
        for (place, entry) in log.iter().enumerate() {
            let n = place as u64 + 1;
            let written = Written { n, word: &entry.word, seat: entry.seat, a: entry.a, b: entry.b };
            table.take(n, &written.entry(&self.sheet)?).ok()?;
        }
        Some(table)
    }

    fn say(&self, n: u64, code: u8, settlement: Option<Settlement>) -> Answer {
        Answer {
            n,
            code,
            turn: self.table.turn(),
            mark: self.table.hand.as_ref().map_or(0, |hand| hand.mark),
            pots: self.table.pots(),
            settlement,
        }
    }
}

fn is_one_of_six(word: &str) -> bool {
    SIX.contains(&word)
}

fn value<'a>(line: &'a [u8], key: &str) -> Option<&'a [u8]> {
    if line.len() > LONGEST_LINE {
        return None;
    }
    line.strip_prefix(key.as_bytes())?.strip_prefix(b"=")
}

/// The N of a whole block whose first line is a good `right=N`.
fn corrected_number(block: &[u8]) -> Option<u64> {
    let whole = block.iter().filter(|byte| **byte == LF).count() == ENTRY_KEYS.len();
    let first = block.split(|byte| *byte == LF).next()?;
    value(first, "right").and_then(number).filter(|_| whole)
}

/// What `book` writes: the answers, or with `--log` the log as it stands at the end, and on standard error what was refused.
pub struct Run {
    pub out: Vec<u8>,
    pub said: Vec<u8>,
    pub codes: Vec<(bool, u8)>,
}

/// The whole of a run over a whole input.
pub fn run(input: &[u8], as_log: bool, rule: PotRule) -> Run {
    let mut done = Run { out: Vec::new(), said: Vec::new(), codes: Vec::new() };
    let (opening, mut rest) = front(input, SHEET_KEYS.len());
    let Some(read) = sheet(opening) else {
        line(&mut done.out, "code", 11);
        return done;
    };
    let mut book = Book::new(read, rule);
    let mut count = 0;
    while !rest.is_empty() {
        let (block, after) = front(rest, ENTRY_KEYS.len());
        rest = after;
        count += 1;
        let answer = book.answer(block);
        done.codes.push((corrected_number(block).is_some(), answer.code));
        if !as_log {
            answer.write(&mut done.out);
        } else if answer.code != 0 {
            done.said.extend(format!("block={count} code={}\n", answer.code).bytes());
        }
    }
    if as_log {
        done.out.extend(opening);
        for (place, entry) in book.stored.iter().enumerate() {
            done.out.extend(entry.text(place + 1).bytes());
        }
    }
    done
}

/// The first so many lines, or all there is, and what follows.
fn front(bytes: &[u8], lines: usize) -> (&[u8], &[u8]) {
    let end = bytes.iter().enumerate().filter(|(_, byte)| **byte == LF).nth(lines - 1);
    bytes.split_at(end.map_or(bytes.len(), |(place, _)| place + 1))
}
