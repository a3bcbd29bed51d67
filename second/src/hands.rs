//! "Hand order": the best of the 21 choices of five among seven cards, and
//! (request No. 5) of the 60 of two hole cards with three of the board. The
//! deck of 32 (request No. 6) ranks a flush above a full house, and its ace
//! is low in 10-9-8-7-A.

use crate::entries::{cards_of, Card};
use std::cmp::Reverse;

/// The nine classes, low to high in the deck of 52; a class is its place in this table.
pub const CLASSES: [&str; 9] = [
    "five odd cards",
    "pair",
    "two pair",
    "three",
    "straight",
    "flush",
    "full house",
    "four of a kind",
    "straight flush",
];

pub const FLUSH: usize = 5;
pub const FULL_HOUSE: usize = 6;

/// Compared by the place of the class in the deck's order, low to high, then
/// rank by rank. The ranks stand in the order of comparison: held most often
/// first, equal counts by higher rank.
#[derive(Clone, Copy, Debug, PartialEq, Eq, PartialOrd, Ord)]
pub struct Strength {
    place: usize,
    pub class: usize,
    pub ranks: [u8; 5],
}

fn rank(card: Card) -> u8 {
    card / 4 + 2
}

fn suit(card: Card) -> u8 {
    card % 4
}

/// Where a deck ranks a class.
fn place_of(deck: usize, class: usize) -> usize {
    match (deck, class) {
        (32, FLUSH) => FULL_HOUSE,
        (32, FULL_HOUSE) => FLUSH,
        _ => class,
    }
}

/// The straight in which a deck's ace is low, and what it ranks as: five high,
/// and with 32 cards ten high.
fn lowest_straight(deck: usize) -> ([u8; 5], [u8; 5]) {
    match deck {
        32 => ([14, 10, 9, 8, 7], [10, 9, 8, 7, 6]),
        _ => ([14, 5, 4, 3, 2], [5, 4, 3, 2, 1]),
    }
}

/// What five cards are worth in a deck of that many.
pub fn five_value(deck: usize, cards: [Card; 5]) -> Strength {
    let mut ranks = cards.map(rank);
    let mut times = [0; 15];
    ranks.iter().for_each(|rank| times[*rank as usize] += 1);
    ranks.sort_by_key(|rank| Reverse((times[*rank as usize], *rank)));
    let held = ranks.map(|rank| times[rank as usize]);
    let (with_low_ace, counted_as) = lowest_straight(deck);
    if ranks == with_low_ace {
        ranks = counted_as;
    }
    let straight = ranks.windows(2).all(|pair| pair[0] == pair[1] + 1);
    let flush = cards.iter().all(|card| suit(*card) == suit(cards[0]));
    let class = match (straight, flush, held) {
        (true, true, _) => 8,
        (_, _, [4, ..]) => 7,
        (_, _, [3, _, _, 2, _]) => FULL_HOUSE,
        (_, true, _) => FLUSH,
        (true, _, _) => 4,
        (_, _, [3, ..]) => 3,
        (_, _, [2, _, 2, ..]) => 2,
        (_, _, [2, ..]) => 1,
        _ => 0,
    };
    Strength { place: place_of(deck, class), class, ranks }
}

/// Below every hand.
const NONE: Strength = Strength { place: 0, class: 0, ranks: [0; 5] };

/// All 21 choices: every way to leave out two of the seven.
pub fn best_of_seven(deck: usize, cards: [Card; 7]) -> Strength {
    let mut best = NONE;
    for first in 0..7 {
        for second in first + 1..7 {
            best = best.max(five_value(deck, without(cards, first, second)));
        }
    }
    best
}

/// Exactly two of four hole cards with exactly three of the board: all 60,
/// as pairs of places times the pairs of board cards left out.
pub fn best_of_both(deck: usize, hole: [Card; 4], board: [Card; 5]) -> Strength {
    let mut best = NONE;
    for (first, second) in pairs(4) {
        for (left, out) in pairs(5) {
            let mut lying = (0..5).filter(|place| *place != left && *place != out).map(|place| board[place]);
            let mut next = || lying.next().expect("three of five");
            best = best.max(five_value(deck, [hole[first], hole[second], next(), next(), next()]));
        }
    }
    best
}

/// Every two places below `count`, the lower first.
fn pairs(count: usize) -> impl Iterator<Item = (usize, usize)> {
    (0..count).flat_map(move |first| (first + 1..count).map(move |second| (first, second)))
}

fn without(cards: [Card; 7], first: usize, second: usize) -> [Card; 5] {
    let mut kept = [0; 5];
    let places = (0..7).filter(|place| *place != first && *place != second);
    for (slot, place) in kept.iter_mut().zip(places) {
        *slot = cards[place];
    }
    kept
}

/// Asked directly about cards: refuses any number of them but seven with 2,
/// then any that the deck has not with 2, then a repeat with 8.
pub fn read_hand(deck: usize, cards: &[u64]) -> Result<Strength, u8> {
    let seven: [u64; 7] = cards.try_into().map_err(|_| 2)?;
    let in_deck = |card: u64| Card::try_from(card).ok().filter(|card| cards_of(deck).contains(card)).ok_or(2);
    let mut cards = [0; 7];
    for (slot, card) in cards.iter_mut().zip(seven) {
        *slot = in_deck(card)?;
    }
    if (1..7).any(|place| cards[..place].contains(&cards[place])) {
        return Err(8);
    }
    Ok(best_of_seven(deck, cards))
}
