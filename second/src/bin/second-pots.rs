//! Lines `seats puck rate cap step board drop  totals  live  strengths  present` in, one line
//! with pots, back, fee, drop, due, paid and unclaimed out. A line of another length,
//! with a step of 0 or with a word that is no number is answered by `2`.

use second::pots::{literally, Commission, Pots, Shares, Stake};
use std::io::{self, BufRead, BufWriter, Write};

struct Case {
    puck: usize,
    commission: Commission,
    drop: u64,
    /// These three by seat, place 0 unused.
    stakes: Vec<Stake>,
    strengths: Vec<u64>,
    present: Vec<bool>,
}

fn main() -> io::Result<()> {
    let mut output = BufWriter::new(io::stdout().lock());
    for line in io::stdin().lock().lines() {
        let answer = case(&line?).map_or("2".to_string(), |case| case.answer());
        writeln!(output, "{answer}")?;
    }
    output.flush()
}

fn case(line: &str) -> Option<Case> {
    let words = line.split_ascii_whitespace();
    let numbers: Vec<u64> = words.map(|word| word.parse().ok()).collect::<Option<_>>()?;
    let [seats, puck, rate, cap, step, board, drop, ref lists @ ..] = *numbers else { return None };
    let (seats, board_cards) = (seats as usize, board as usize);
    if !(2..=10).contains(&seats) || lists.len() != 4 * seats || step == 0 {
        return None;
    }
    // Seat s stands at place s of each list; place 0 is filled up with 0.
    let list = |place: usize| {
        let given = lists[place * seats..(place + 1) * seats].iter();
        std::iter::once(0).chain(given.copied())
    };
    let stakes = list(0).zip(list(1)).map(|(total, live)| Stake { total, live: live == 1 });
    Some(Case {
        puck: puck as usize,
        commission: Commission { rate, cap, step, board_cards },
        drop,
        stakes: stakes.collect(),
        strengths: list(2).collect(),
        present: list(3).map(|present| present == 1).collect(),
    })
}

impl Case {
    fn answer(&self) -> String {
        let pots = literally(&self.stakes);
        let Shares { fee, drop, due, .. } =
            pots.share_and_drop(self.commission, self.drop, self.puck, &self.strengths);
        let paid = due.iter().zip(&self.present).map(|(due, there)| due * u64::from(*there));
        let paid: Vec<u64> = paid.collect();
        let unclaimed = due.iter().sum::<u64>() - paid.iter().sum::<u64>();
        let back = pots.back();
        let Pots { pots, .. } = pots;
        let pots = joined(pots.iter().map(|pot| pot.amount));
        let due = joined(due.into_iter().skip(1));
        let paid = joined(paid.into_iter().skip(1));
        format!(
            "pots:{pots} back: {back} fee: {fee} drop: {drop} due:{due} paid:{paid} unclaimed: {unclaimed}"
        )
    }
}

/// Each number with a blank before it.
fn joined(numbers: impl Iterator<Item = u64>) -> String {
    numbers.map(|number| format!(" {number}")).collect()
}
