//! Lines of five card numbers in, `place=N` out: the place of the hand among
//! the classes of equal hands, the lowest 1; `2` or `8` for a line
//! the paper refuses. All 2,598,960 fives are sorted and the classes numbered:
//! no closed form. `--all` writes every five as a line in place of reading.

use second::hands::{five_value, Strength};
use std::io::{self, BufRead, BufWriter, Write};

fn main() -> io::Result<()> {
    let mut output = BufWriter::new(io::stdout().lock());
    if std::env::args().nth(1).as_deref() == Some("--all") {
        for [a, b, c, d, e] in fives() {
            writeln!(output, "{a} {b} {c} {d} {e}")?;
        }
        return output.flush();
    }
    let classes = classes();
    for line in io::stdin().lock().lines() {
        writeln!(output, "{}", answer(&classes, &line?))?;
    }
    output.flush()
}

/// Every five different cards, each once.
fn fives() -> Vec<[u8; 5]> {
    let mut all = Vec::new();
    for a in 0..52 {
        for b in 0..a {
            for c in 0..b {
                for d in 0..c {
                    all.extend((0..d).map(|e| [a, b, c, d, e]));
                }
            }
        }
    }
    all
}

/// What the fives are worth, from low to high; equal hands once.
fn classes() -> Vec<Strength> {
    let mut all: Vec<Strength> = fives().into_iter().map(|cards| five_value(52, cards)).collect();
    all.sort_unstable();
    all.dedup();
    all
}

/// A word that is no number counts as one above 51.
fn answer(classes: &[Strength], line: &str) -> String {
    let card = |word: &str| word.parse().unwrap_or(u64::MAX);
    let cards: Vec<u64> = line.split_ascii_whitespace().map(card).collect();
    match place(classes, &cards) {
        Ok(place) => format!("place={place}"),
        Err(code) => format!("{code}"),
    }
}

fn place(classes: &[Strength], cards: &[u64]) -> Result<usize, u8> {
    let five: [u64; 5] = cards.try_into().map_err(|_| 2)?;
    if five.iter().any(|card| *card > 51) {
        return Err(2);
    }
    if (1..5).any(|place| five[..place].contains(&five[place])) {
        return Err(8);
    }
    let hand = five_value(52, five.map(|card| card as u8));
    Ok(classes.binary_search(&hand).expect("every hand is of a class") + 1)
}
