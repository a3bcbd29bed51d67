//! second-book [--log]: what `book` has to write on the same standard input, by the witness.
//! second-book --gen SEED BLOCKS: a random log with corrections among its blocks, made beside the witness's own table.
//! second-book --count: how often each code came for an entry and for a correction, a line each.

use second::book::{run, Book, Stored};
use second::entries::Written;
use second::pots::literally;
use second::random::Random;
use second::text::{sheet, SHEET_KEYS};
use std::collections::BTreeMap;
use std::io::{Read, Write};

fn main() {
    let words: Vec<String> = std::env::args().skip(1).collect();
    let option = words.first().map_or("", String::as_str);
    if option == "--gen" {
        let number = |place: usize| words[place].parse().expect("a number");
        let log = Maker::new(number(1)).log(number(2));
        return std::io::stdout().write_all(log.as_bytes()).expect("standard output can be written");
    }
    let mut input = Vec::new();
    std::io::stdin().read_to_end(&mut input).expect("standard input can be read");
    let done = run(&input, option == "--log", literally);
    if option == "--count" {
        let mut often: BTreeMap<(bool, u8), u64> = BTreeMap::new();
        done.codes.iter().for_each(|code| *often.entry(*code).or_default() += 1);
        often
            .iter()
            .for_each(|((right, code), n)| println!("{} {code} {n}", if *right { "right" } else { "entry" }));
        return;
    }
    // A reader that has gone away ends the program quietly.
    let _ = std::io::stdout().write_all(&done.out).and_then(|()| std::io::stderr().write_all(&done.said));
}

const WORDS: [&str; 14] = [
    "sit", "leave", "hand", "hole", "fold", "check", "call", "wager", "board", "dead", "settle", "void",
    "raise", "foldx",
];
const SIX: [&str; 6] = ["hole", "fold", "check", "call", "wager", "board"];

/// Makes a log block by block, with a table of its own at hand.
struct Maker {
    random: Random,
    text: String,
    most: u64,
    seats: u64,
}

impl Maker {
    fn new(seed: u64) -> Maker {
        Maker { random: Random::new(seed), text: String::new(), most: 0, seats: 0 }
    }

    fn log(mut self, blocks: u64) -> String {
        self.open();
        let read = sheet(self.text.as_bytes()).expect("a good sheet");
        let mut book = Book::new(read, literally);
        for _ in 0..blocks {
            let block = match self.random.between(1, 100) {
                1..=14 if !book.stored.is_empty() => self.correction(&book),
                1..=22 => self.fault(&book),
                _ => self.entry(&book),
            };
            book.answer(block.as_bytes());
            self.text += &block;
        }
        if self.random.chance(20) {
            let cut = self.random.between(1, 30) as usize;
            self.text.truncate(self.text.len().saturating_sub(cut).max(1));
        }
        self.text
    }

    fn open(&mut self) {
        self.seats = self.random.between(2, 10);
        self.most = self.random.pick(&[30, 200, 5_000, 1_000_000]);
        let big = self.random.between(1, 20);
        for key in SHEET_KEYS {
            let value = match key {
                "seats" => self.seats,
                "small" => self.random.between(1, big),
                "big" => big,
                "rate" => self.random.between(0, 100),
                "cap" => self.random.between(0, 50),
                "step" => self.random.pick(&[1, 1, 5]),
                "game" => self.random.pick(&[2, 2, 4]),
                "deck" => 52,
                _ => 0,
            };
            self.text += &format!("{key}={value}\n");
        }
    }

    /// Numbers for a word, most of them in range.
    fn numbers(&mut self, word: &str, book: &Book) -> (u64, u64, u64) {
        let turn = book.table.turn() as u64;
        let any = self.random.between(1, self.seats);
        let seat = if turn > 0 && self.random.chance(80) { turn } else { any };
        let card = |random: &mut Random| random.between(0, 51);
        match word {
            "sit" => (any, self.random.between(1, self.most), 0),
            "hole" => (any, card(&mut self.random), card(&mut self.random)),
            "wager" => (seat, self.wager_to(book, seat), 0),
            "board" => (0, card(&mut self.random), 0),
            "settle" | "void" => (0, 0, 0),
            "fold" | "check" | "call" => (seat, 0, 0),
            _ => (any, 0, 0),
        }
    }

    fn wager_to(&mut self, book: &Book, seat: u64) -> u64 {
        let (mark, lift) = book.table.hand.as_ref().map_or((0, 0), |hand| (hand.mark, hand.lift));
        let whole = book.table.stack(seat as usize)
            + book.table.dealt(seat as usize).map_or(0, |dealt| dealt.round_total);
        let more = self.random.between(0, 30);
        self.random.pick(&[mark + lift, mark + lift + more, whole, whole, mark + 1]).max(1)
    }

    /// An entry that is taken, where some tries find one.
    fn entry(&mut self, book: &Book) -> String {
        let n = book.table.taken + 1;
        let mut last = String::new();
        for _ in 0..300 {
            let word = self.random.pick(&[
                "sit", "leave", "hand", "hand", "hole", "hole", "hole", "fold", "check", "check", "call",
                "call", "call", "wager", "board", "board", "dead", "settle",
            ]);
            // Few leave, few die: else no hand would come far.
            if matches!(word, "leave" | "dead" | "fold") && !self.random.chance(8)
                || word == "sit" && book.table.taken > 3 && !self.random.chance(30)
            {
                continue;
            }
            let (seat, a, b) = self.numbers(word, book);
            last = Stored { word: word.to_string(), seat, a, b }.text(n as usize);
            let written = Written { n, word, seat, a, b };
            if written.entry(&book.sheet).is_some_and(|entry| book.table.refusal(n, &entry) == 0) {
                break;
            }
        }
        last
    }

    /// A block with something wrong.
    fn fault(&mut self, book: &Book) -> String {
        let word = self.random.pick(&WORDS);
        let (seat, a, b) = self.numbers(word, book);
        let n = book.table.taken + if self.random.chance(80) { 1 } else { self.random.between(0, 2) };
        let wrong = Stored { word: word.to_string(), seat, a, b }.text(n as usize);
        if self.random.chance(30) {
            self.damaged(wrong)
        } else {
            wrong
        }
    }

    /// A correction: of a hole, board or wager entry of the open hand, of one two hands back, or of any; by another of the six as a rule.
    fn correction(&mut self, book: &Book) -> String {
        let place = self.place(book);
        let Some(old) = book.stored.get(place.wrapping_sub(1)) else {
            return self.renamed(Stored { word: "fold".into(), seat: 1, a: 0, b: 0 }, place);
        };
        let mut new = old.clone();
        match self.random.between(1, 10) {
            1..=3 => {
                (new.seat, new.a, new.b) = self.numbers(&old.word, book);
                new.seat = old.seat;
            }
            4..=5 => new.a = (new.a + self.random.between(0, 2)).saturating_sub(self.random.between(0, 2)),
            6..=7 => {
                new.word = self.random.pick(&SIX).to_string();
                (_, new.a, new.b) = self.numbers(&new.word.clone(), book);
            }
            8 => new.word = self.random.pick(&WORDS).to_string(),
            9 => {
                (new.seat, new.a, new.b) =
                    (self.random.between(0, 11), self.random.between(0, 60), self.random.between(0, 60))
            }
            _ => (),
        }
        self.renamed(new, place)
    }

    fn place(&mut self, book: &Book) -> usize {
        let stored = book.stored.len();
        let hands: Vec<usize> = (1..=stored).filter(|n| book.stored[n - 1].word == "hand").collect();
        let from = match self.random.between(1, 4) {
            1 => hands.last().copied(),
            2 => hands.len().checked_sub(3).map(|k| hands[k]),
            _ => None,
        };
        let low = from.unwrap_or(1);
        let high = if from.is_some() { (low + 25).min(stored) } else { stored };
        let mut place = self.random.between(low as u64, high as u64) as usize;
        for _ in 0..20 {
            if self.random.chance(5) || SIX.contains(&book.stored[place - 1].word.as_str()) {
                break;
            }
            place = self.random.between(low as u64, high as u64) as usize;
        }
        match self.random.between(1, 30) {
            1 => 0,
            2 => stored + self.random.between(1, 3) as usize,
            3 => 999_999_999,
            _ => place,
        }
    }

    fn renamed(&mut self, new: Stored, place: usize) -> String {
        let text = new.text(place).replacen("n=", "right=", 1);
        if self.random.chance(10) {
            self.damaged(text)
        } else {
            text
        }
    }

    /// Something of a block is changed: a byte, a line, or nothing.
    fn damaged(&mut self, text: String) -> String {
        let lines: Vec<&str> = text.split_inclusive('\n').collect();
        let place = self.random.between(0, 4) as usize;
        let mut new: Vec<String> = lines.iter().map(|line| line.to_string()).collect();
        let key = lines[place].split('=').next().unwrap_or("").to_string();
        new[place] = match self.random.between(1, 8) {
            1 => format!("{key}=01\n"),
            2 => format!("{key}=\n"),
            3 => format!("{key}={}\n", "9".repeat(40)),
            4 => format!("{key}=1000000000\n"),
            5 => format!("{key}=999999999\n"),
            6 => format!("{key}x=1\n"),
            7 => format!("{key}=a1\n"),
            _ => new[place].clone(),
        };
        new.concat()
    }
}
