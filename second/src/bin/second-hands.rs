//! Lines of seven card numbers in, `class r1 r2 r3 r4 r5` of the best five
//! out; `2` or `8` for a line the paper refuses. With `--short` the cards are
//! of the deck of 32 (request No. 6). `--speed N` prints how many hands a
//! second are read out of N random ones.

use second::hands::{read_hand, Strength};
use second::random::Random;
use std::io::{self, BufRead, BufWriter, Write};
use std::time::Instant;

fn main() -> io::Result<()> {
    let arguments: Vec<String> = std::env::args().collect();
    if let [_, flag, count] = arguments.as_slice() {
        if flag == "--speed" {
            println!("{}", hands_a_second(count.parse().expect("--speed N")));
            return Ok(());
        }
    }
    let deck = if arguments.get(1).is_some_and(|flag| flag == "--short") { 32 } else { 52 };
    let mut output = BufWriter::new(io::stdout().lock());
    for line in io::stdin().lock().lines() {
        writeln!(output, "{}", reading(deck, &line?))?;
    }
    output.flush()
}

/// A word that is no number counts as one above 51.
fn reading(deck: usize, line: &str) -> String {
    let card = |word: &str| word.parse().unwrap_or(u64::MAX);
    let cards: Vec<u64> = line.split_ascii_whitespace().map(card).collect();
    match read_hand(deck, &cards) {
        Ok(Strength { class, ranks: [a, b, c, d, e], .. }) => format!("{class} {a} {b} {c} {d} {e}"),
        Err(code) => code.to_string(),
    }
}

fn hands_a_second(count: usize) -> u64 {
    let mut random = Random::new(1);
    let hands: Vec<[u64; 7]> = (0..count).map(|_| random.seven_cards()).collect();
    let start = Instant::now();
    let best = hands.iter().map(|cards| read_hand(52, cards)).max();
    let seconds = start.elapsed().as_secs_f64();
    // The best one is looked at, so that none of the readings can be left out.
    assert!(best.is_some_and(|best| best.is_ok()) || count == 0);
    (count as f64 / seconds) as u64
}
