//! The twelve kinds of entries, each carrying only its own numbers.

use crate::seats::Seat;
use crate::text::{number, values, word, Sheet, ENTRY_KEYS};
use std::ops::RangeInclusive;

pub type Card = u8;

/// A block of good form, its numbers not yet held against their ranges.
#[derive(Clone, Copy, Debug)]
pub struct Written<'a> {
    pub n: u64,
    pub word: &'a str,
    pub seat: u64,
    pub a: u64,
    pub b: u64,
}

#[derive(Clone, Copy, Debug, PartialEq)]
pub enum Entry {
    Sit { seat: Seat, chips: u64 },
    Leave { seat: Seat },
    Hand { puck: Seat },
    Hole { seat: Seat, cards: [Card; 2] },
    Fold { seat: Seat },
    Check { seat: Seat },
    Call { seat: Seat },
    Wager { seat: Seat, to: u64 },
    Board { card: Card },
    Dead { seat: Seat },
    Settle,
    Void,
}

/// Reads a block; nothing where the paper gives 1.
pub fn read_block(block: &[u8]) -> Option<Written<'_>> {
    let [n, kind, seat, a, b] = values(block, ENTRY_KEYS)?;
    Some(Written { n: number(n)?, word: word(kind)?, seat: number(seat)?, a: number(a)?, b: number(b)? })
}

const UNUSED: RangeInclusive<u64> = 0..=0;
const SIT_CHIPS: RangeInclusive<u64> = 1..=1_000_000;
const WAGER_TO: RangeInclusive<u64> = 1..=100_000_000;
const N: RangeInclusive<u64> = 1..=1_000_000;

/// The cards of a deck: all 52, or (request No. 6) seven to ace only.
pub fn cards_of(deck: usize) -> RangeInclusive<Card> {
    if deck == 32 {
        20..=51
    } else {
        0..=51
    }
}

/// The column "uses" of the paper's table: the ranges of seat, a and b.
fn ranges(word: &str, sheet: &Sheet) -> Option<[RangeInclusive<u64>; 3]> {
    let seat = 1..=sheet.seats as u64;
    let cards = cards_of(sheet.deck);
    let card = u64::from(*cards.start())..=u64::from(*cards.end());
    Some(match word {
        "sit" => [seat, SIT_CHIPS, UNUSED],
        "leave" | "hand" | "fold" | "check" | "call" | "dead" => [seat, UNUSED, UNUSED],
        "hole" => [seat, card.clone(), card],
        "wager" => [seat, WAGER_TO, UNUSED],
        "board" => [UNUSED, card, UNUSED],
        "settle" | "void" => [UNUSED, UNUSED, UNUSED],
        _ => return None,
    })
}

impl Written<'_> {
    /// The entry meant; nothing where the paper gives 2.
    pub fn entry(&self, sheet: &Sheet) -> Option<Entry> {
        let [seat_range, a_range, b_range] = ranges(self.word, sheet)?;
        let in_range = N.contains(&self.n)
            && seat_range.contains(&self.seat)
            && a_range.contains(&self.a)
            && b_range.contains(&self.b);
        in_range.then(|| self.kind())
    }

    /// Only asked once word and ranges are known to be good.
    fn kind(&self) -> Entry {
        let seat = self.seat as Seat;
        let card = |number: u64| number as Card;
        match self.word {
            "sit" => Entry::Sit { seat, chips: self.a },
            "leave" => Entry::Leave { seat },
            "hand" => Entry::Hand { puck: seat },
            "hole" => Entry::Hole { seat, cards: [card(self.a), card(self.b)] },
            "fold" => Entry::Fold { seat },
            "check" => Entry::Check { seat },
            "call" => Entry::Call { seat },
            "wager" => Entry::Wager { seat, to: self.a },
            "board" => Entry::Board { card: card(self.a) },
            "dead" => Entry::Dead { seat },
            "settle" => Entry::Settle,
            _ => Entry::Void,
        }
    }
}
