//! second-pay [--check]: what `pay` has to write on the same standard input, by the witness.
//! second-pay --all WORTH COUNT WORTH COUNT .. / PAID ..: every proposal of a tiny tray that is accepted, one to a line, found by trying all.

use std::io::{Read, Write};

use second::pay::{check, run, Row};

fn main() {
    let words: Vec<String> = std::env::args().skip(1).collect();
    if words.first().is_some_and(|w| w == "--all") {
        return all(&words[1..]);
    }
    let mut input = Vec::new();
    std::io::stdin().read_to_end(&mut input).expect("standard input can be read");
    let checking = words.first().is_some_and(|w| w == "--check");
    std::io::stdout().write_all(run(&input, checking).as_bytes()).expect("standard output can be written");
}

/// Tries every proposal whose numbers are at most one above a row's count.
fn all(words: &[String]) {
    let split = words.iter().position(|w| w == "/").expect("a / before what is paid");
    let numbers = |ws: &[String]| -> Vec<u64> { ws.iter().map(|w| w.parse().expect("a number")).collect() };
    let rows: Vec<Row> =
        numbers(&words[..split]).chunks(2).map(|r| Row { worth: r[0], count: r[1] }).collect();
    let paid = numbers(&words[split + 1..]);
    let most: Vec<u64> =
        (0..rows.len() * paid.len()).map(|place| rows[place % rows.len()].count + 1).collect();
    let mut proposal = vec![0; most.len()];
    loop {
        let text: Vec<String> = proposal.iter().map(u64::to_string).collect();
        println!("{} {}", text.join(","), check(&rows, &paid, &proposal).0);
        let Some(place) = (0..most.len()).find(|p| proposal[*p] < most[*p]) else {
            return;
        };
        proposal[place] += 1;
        proposal[..place].fill(0);
    }
}
