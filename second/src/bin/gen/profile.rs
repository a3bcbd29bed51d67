//! Profiles: what sort of evening a log tells.

use crate::damage::damaged;
use second::random::Random;
use second::text::SHEET_KEYS;

/// The values of the sheet's lines, in their order.
type SheetNumbers = [u64; SHEET_KEYS.len()];

/// How large the stacks are that players sit down with.
#[derive(Clone, Copy, PartialEq)]
pub enum Stacks {
    /// 1 to 3 chips.
    Tiny,
    /// Some big blinds, odd sizes.
    Blinds,
    /// A few big blinds, so that whole stacks lie less than a lift apart; and
    /// now and then a deep one.
    Steps,
    /// Anything up to 1,000,000, small as likely as large.
    Any,
    /// 1,000,000, or what is left up to the table's limit, or one more.
    Million,
}

/// Chances are in a hundred.
pub struct Profile {
    pub name: &'static str,
    pub least_seats: u64,
    pub stacks: Stacks,
    pub fold: u64,
    pub raise: u64,
    pub all_in: u64,
    /// A whole stack that lifts the mark by less than the lift goes in.
    pub short: u64,
    pub dead: u64,
    /// A player leaves between hands, above all one with a great stack.
    pub leave: u64,
    /// A folded player leaves, and an empty seat is taken, inside a hand.
    pub churn: u64,
    pub tie: u64,
    /// An entry made to be refused, and a block with damaged bytes.
    pub fault: u64,
    pub damage: u64,
    pub bad_sheet: u64,
    pub cut_end: u64,
    /// Four hole cards.
    pub four: u64,
    /// The deck of 32, where there are two hole cards.
    pub deck32: u64,
}

const CASH: Profile = Profile {
    name: "cash",
    least_seats: 2,
    stacks: Stacks::Blinds,
    fold: 15,
    raise: 25,
    all_in: 5,
    short: 60,
    dead: 2,
    leave: 2,
    churn: 20,
    tie: 20,
    fault: 3,
    damage: 1,
    bad_sheet: 0,
    cut_end: 20,
    four: 0,
    deck32: 0,
};

pub static PROFILES: [Profile; 11] = [
    CASH,
    Profile { name: "tiny", stacks: Stacks::Tiny, all_in: 20, fold: 5, churn: 30, ..CASH },
    Profile {
        name: "shorts",
        least_seats: 5,
        stacks: Stacks::Steps,
        fold: 4,
        raise: 40,
        short: 85,
        dead: 1,
        leave: 40,
        fault: 1,
        ..CASH
    },
    Profile { name: "ladder", least_seats: 8, stacks: Stacks::Any, all_in: 70, fold: 3, ..CASH },
    Profile {
        name: "limit",
        least_seats: 6,
        stacks: Stacks::Million,
        all_in: 90,
        fold: 8,
        dead: 0,
        churn: 40,
        ..CASH
    },
    Profile { name: "deserters", least_seats: 3, raise: 45, dead: 15, churn: 80, fold: 35, ..CASH },
    Profile { name: "refusals", stacks: Stacks::Any, fault: 60, damage: 5, four: 30, deck32: 40, ..CASH },
    Profile { name: "damage", fault: 5, damage: 60, cut_end: 100, ..CASH },
    Profile { name: "sheets", bad_sheet: 80, damage: 10, four: 30, deck32: 40, ..CASH },
    Profile { name: "four", fault: 10, fold: 6, raise: 10, four: 100, ..CASH },
    Profile { name: "short", fault: 10, fold: 6, raise: 10, deck32: 100, ..CASH },
];

impl Profile {
    /// The sheet's text: good, out of range, or with damaged bytes.
    pub fn sheet(&self, seats: Option<u64>, random: &mut Random) -> Vec<u8> {
        let mut good = self.sheet_numbers(random);
        good[0] = seats.unwrap_or(good[0]);
        let bad = random.chance(self.bad_sheet);
        let numbers = if bad && random.chance(50) { out_of_range(good, random) } else { good };
        let lines = SHEET_KEYS.iter().zip(numbers).map(|(key, number)| format!("{key}={number}\n"));
        let text = lines.collect::<String>().into_bytes();
        if bad && numbers == good {
            return damaged(text, random);
        }
        text
    }

    /// Good numbers, the extremes as likely as all the rest.
    fn sheet_numbers(&self, random: &mut Random) -> SheetNumbers {
        let some_seats = random.between(self.least_seats, 10);
        let seats = random.pick(&[self.least_seats, 10, some_seats]);
        let (small, big) = self.blinds(random);
        let some_step = random.of_any_size(1_000);
        let step = random.pick(&[1, 1_000, 5, some_step, some_step]);
        let game = if random.chance(self.four) { 4 } else { 2 };
        let deck = if game == 2 && random.chance(self.deck32) { 32 } else { 52 };
        let some_drop = random.of_any_size(1_000);
        let drop = random.pick(&[0, 1_000, 1, some_drop, some_drop]);
        // A high commission would keep a table from ever reaching the limit.
        if self.stacks == Stacks::Million {
            return [seats, small, big, random.between(0, 4), 1_000, step, game, deck, drop];
        }
        let (some_rate, some_cap) = (random.between(1, 99), random.of_any_size(1_000_000));
        let rate = random.pick(&[0, 100, 50, some_rate, some_rate]);
        let cap = random.pick(&[0, 1_000_000, 15, some_cap, some_cap]);
        [seats, small, big, rate, cap, step, game, deck, drop]
    }

    fn blinds(&self, random: &mut Random) -> (u64, u64) {
        let most = if self.stacks == Stacks::Tiny { 4 } else { 10_000 };
        if self.stacks == Stacks::Steps {
            let big = random.between(10, 200);
            return (random.between(1, big), big);
        }
        let some = random.of_any_size(most);
        let low = random.between(1, some);
        random.pick(&[
            (1, 1),
            (1, 2),
            (5.min(most), 10.min(most)),
            (1, most),
            (most, most),
            (low, some),
            (low, some),
        ])
    }

    /// Chips to sit down with; `left` is what the limit still lets in.
    pub fn chips(&self, random: &mut Random, big: u64, left: u64) -> u64 {
        let other = random.pick(&[Stacks::Tiny, Stacks::Blinds, Stacks::Any]);
        let stacks = if random.chance(10) { other } else { self.stacks };
        let chips = match stacks {
            Stacks::Tiny => random.between(1, 3),
            Stacks::Blinds => random.between(1, 30 * big),
            Stacks::Steps if random.chance(20) => random.between(1, 40 * big),
            Stacks::Steps => random.between(big, 5 * big),
            Stacks::Any => random.of_any_size(1_000_000),
            Stacks::Million => random.pick(&[1_000_000, 1_000_000, left.min(1_000_000), left + 1]),
        };
        chips.clamp(1, 1_000_000)
    }
}

/// One number put just outside its range, or a game that the deck has not.
fn out_of_range(good: SheetNumbers, random: &mut Random) -> SheetNumbers {
    let [_, _, big, ..] = good;
    let places: [(usize, &[u64]); SHEET_KEYS.len()] = [
        (0, &[1, 11]),
        (1, &[0, big + 1]),
        (2, &[10_001]),
        (3, &[101]),
        (4, &[1_000_001]),
        (5, &[0, 1_001]),
        (6, &[0, 3, 5]),
        (7, &[0, 31, 33, 51, 53]),
        (8, &[1_001]),
    ];
    let mut numbers = good;
    if random.chance(10) {
        (numbers[6], numbers[7]) = (4, 32);
        return numbers;
    }
    let (place, bad) = random.pick(&places);
    numbers[place] = random.pick(bad);
    numbers
}
