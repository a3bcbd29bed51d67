//! Request No. 7, the program `pair`, from REQUESTS.md alone: the whole input lies in memory, is cut at the good `table` lines,
//! and the pool is what the books over the list of hands say, in wide numbers.

use crate::answer::{answer_block, line, Answer};
use crate::entries::Card;
use crate::pots::PotRule;
use crate::table::{Dealt, Table};
use crate::text::{number, sheet, values, ENTRY_KEYS, LF, SHEET_KEYS};

/// The pool never exceeds this.
pub const MOST: i128 = 999_999_999;
/// A pool line and two sheets.
pub const OPENING_LINES: usize = 1 + 2 * SHEET_KEYS.len();

/// A settled hand: what it dropped, what of that went to the house, and what it won.
#[derive(Clone, Copy, Debug)]
pub struct Played {
    pub table: usize,
    pub drop: i128,
    pub house: i128,
    pub win: i128,
}

/// Every hand that was settled; nothing else is kept of the pool.
pub struct Books {
    pub opening: i128,
    pub hands: Vec<Played>,
    dropped: i128,
    housed: i128,
    won: i128,
}

impl Books {
    fn new(opening: u64) -> Books {
        Books { opening: i128::from(opening), hands: Vec::new(), dropped: 0, housed: 0, won: 0 }
    }

    /// "Pool opening plus all drops equals jackpot payments, the parts that went to the house, and the pool."
    pub fn pool(&self) -> i128 {
        self.opening + self.dropped - self.won - self.housed
    }

    pub fn house(&self) -> i128 {
        self.hands.iter().map(|hand| hand.house).sum()
    }

    /// What a hand wins: the drop goes in first, what lies above the limit to the house, and a royal flush takes the rest.
    fn settle(&mut self, table: usize, drop: u64, royal: bool) -> i128 {
        let with_drop = self.pool() + i128::from(drop);
        let house = (with_drop - MOST).max(0);
        let win = if royal { with_drop - house } else { 0 };
        self.hands.push(Played { table, drop: i128::from(drop), house, win });
        self.dropped += i128::from(drop);
        self.housed += house;
        self.won += win;
        win
    }
}

/// What the input is cut into behind its opening.
#[derive(Clone, Debug, PartialEq)]
pub enum Piece {
    /// Five lines behind a good `table` line.
    Whole(usize, Vec<u8>),
    /// Fewer than five before the next good `table` line or the end: how many, and whether the input ended there.
    Cut(usize, usize, bool),
    /// A run of so many lines of no table.
    NoTable(usize),
}

/// What was answered: by which table (0: none), what was said, and what the hand won if one was settled.
pub struct Said {
    pub table: usize,
    pub answer: Option<Answer>,
    pub win: Option<i128>,
}

/// The two tables and the books.
pub struct Pair {
    pub tables: [Table; 2],
    pub books: Books,
}

/// The whole output; with a table's number only that table's answers, for its screen.
pub fn run(input: &[u8], only: Option<usize>, rule: PotRule) -> Vec<u8> {
    let mut out = Vec::new();
    let lines: Vec<&[u8]> = input.split_inclusive(|byte| *byte == LF).collect();
    let Some(mut pair) = Pair::open(&lines, rule) else {
        line(&mut out, "code", 11);
        return out;
    };
    for piece in pieces(&lines[OPENING_LINES..]) {
        let said = pair.answer(&piece);
        if only.is_none_or(|table| table == said.table) {
            write_said(&said, only.is_none(), &mut out);
        }
    }
    if only.is_none() {
        out.extend(format!("pool={}\nhouse={}\n", pair.books.pool(), pair.books.house()).bytes());
    }
    out
}

impl Pair {
    /// The first nineteen lines, or nothing where they give 11.
    pub fn open(lines: &[&[u8]], rule: PotRule) -> Option<Pair> {
        let opening = lines.get(..OPENING_LINES)?;
        let [held] = values(opening[0], ["pool"])?;
        let held = number(held)?;
        let one = sheet(&opening[1..=SHEET_KEYS.len()].concat())?;
        let two = sheet(&opening[1 + SHEET_KEYS.len()..].concat())?;
        Some(Pair { tables: [Table::sharing(one, rule), Table::sharing(two, rule)], books: Books::new(held) })
    }

    pub fn answer(&mut self, piece: &Piece) -> Said {
        match piece {
            Piece::NoTable(_) => Said { table: 0, answer: None, win: None },
            Piece::Cut(table, _, _) => {
                let answer = answer_block(&mut self.tables[table - 1], b"");
                Said { table: *table, answer: Some(answer), win: None }
            }
            Piece::Whole(table, block) => self.answer_whole(*table, block),
        }
    }

    fn answer_whole(&mut self, table: usize, block: &[u8]) -> Said {
        let here = &mut self.tables[table - 1];
        if let Some(n) = corrected(block) {
            let answer = Answer { n, code: 14, ..answer_block(here, b"") };
            return Said { table, answer: Some(answer), win: None };
        }
        let royal = royal_held(here);
        let answer = answer_block(here, block);
        let win = answer.settlement.as_ref().map(|settled| self.books.settle(table, settled.drop, royal));
        Said { table, answer: Some(answer), win }
    }
}

/// The N of a first line that is a good `right=N`.
fn corrected(block: &[u8]) -> Option<u64> {
    let first = block.split_inclusive(|byte| *byte == LF).next()?;
    values(first, ["right"]).and_then(|[value]| number(value))
}

fn is_royal(card: Card, suit: Card) -> bool {
    card % 4 == suit && card / 4 + 2 >= 10
}

/// A live seat, all its cards entered, with two royal cards of the suit of which three lie among five board cards.
fn royal_held(table: &Table) -> bool {
    let Some(hand) = &table.hand else { return false };
    let holds = |dealt: &Dealt| dealt.cards.len() == table.sheet.game && royal_of(&dealt.cards, &hand.board) == Some(2);
    hand.board.len() == 5 && hand.live().any(holds)
}

/// How many hole cards a royal flush of these takes, where there is one with as few of them as can be.
pub fn royal_of(hole: &[Card], board: &[Card]) -> Option<usize> {
    let count = |cards: &[Card], suit| cards.iter().filter(|card| is_royal(**card, suit)).count();
    (0..4).find(|suit| count(hole, *suit) + count(board, *suit) == 5).map(|suit| count(hole, suit))
}

/// 1 or 2, where this is a good `table` line, its LF too.
fn table_of(line: &[u8]) -> Option<usize> {
    let [value] = values(line, ["table"])?;
    number(value).filter(|table| [1, 2].contains(table)).map(|table| table as usize)
}

/// The lines behind the opening: a good `table` line always begins a block, so they are cut there first.
pub fn pieces(lines: &[&[u8]]) -> Vec<Piece> {
    let begins: Vec<usize> = (0..lines.len()).filter(|place| table_of(lines[*place]).is_some()).collect();
    let mut found = Vec::new();
    let first = begins.first().copied().unwrap_or(lines.len());
    if first > 0 {
        found.push(Piece::NoTable(first));
    }
    for (nth, begin) in begins.iter().enumerate() {
        let end = begins.get(nth + 1).copied().unwrap_or(lines.len());
        let table = table_of(lines[*begin]).expect("a table line");
        let behind = &lines[begin + 1..end];
        let whole = behind.iter().filter(|line| line.ends_with(&[LF])).count();
        if whole < ENTRY_KEYS.len() {
            found.push(Piece::Cut(table, behind.len(), end == lines.len()));
            continue;
        }
        found.push(Piece::Whole(table, behind[..ENTRY_KEYS.len()].concat()));
        if behind.len() > ENTRY_KEYS.len() {
            found.push(Piece::NoTable(behind.len() - ENTRY_KEYS.len()));
        }
    }
    found
}

/// The answer as `pair` writes it, with its `table` line or without.
fn write_said(said: &Said, named: bool, out: &mut Vec<u8>) {
    if named {
        line(out, "table", said.table as u64);
    }
    let Some(answer) = &said.answer else {
        return out.extend(b"n=0\ncode=1\nturn=0\nmark=0\nback=0\n");
    };
    out.extend(said_bytes(answer, said.win));
}

/// An answer, with its `jackpot` line behind `fee` where a hand was settled.
pub fn said_bytes(answer: &Answer, win: Option<i128>) -> Vec<u8> {
    let mut plain = Vec::new();
    answer.write(&mut plain);
    let Some(win) = win else { return plain };
    let mut out = Vec::new();
    for text in plain.split_inclusive(|byte| *byte == LF) {
        out.extend(text);
        if text.starts_with(b"fee=") {
            out.extend(format!("jackpot={win:09}\n").bytes());
        }
    }
    out
}
