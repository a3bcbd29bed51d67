//! Entries made to be refused, each code as likely as the others.

use crate::play::{Player, MOST_CHIPS};
use crate::Fields;
use second::entries::{cards_of, Card, Entry};
use second::table::{Hand, Table};

/// How often another random entry is tried until one meets its code.
const TRIES: usize = 60;

impl Player {
    pub fn fault(&mut self, table: &Table) -> Fields {
        let n = table.taken + 1;
        match self.random.between(2, 10) as u8 {
            2 if table.sheet.deck == 32 && self.random.chance(30) => self.below_seven(table),
            2 => self.out_of_range(table),
            3 => Fields { n: self.wrong_n(n), ..self.legal(table) },
            code => Fields::of(n, &self.refused_with(code, table)),
        }
    }

    fn legal(&mut self, table: &Table) -> Fields {
        Fields::of(table.taken + 1, &self.next_entry(table))
    }

    fn wrong_n(&mut self, n: u64) -> u64 {
        let any = self.random.of_any_size(1_000_000);
        self.random.pick(&[n + 1, n.max(2) - 1, n + 2, 1, 1_000_000, any])
    }

    /// A card that the deck of 32 has not, all else in range.
    fn below_seven(&mut self, table: &Table) -> Fields {
        let some = self.random.between(0, 19) as Card;
        let low = self.random.pick(&[19, some]);
        let (good, n) = (self.wild_card(table), table.taken + 1);
        let n = if self.random.chance(20) { self.wrong_n(n) } else { n };
        let cards = self.random.pick(&[[low, good], [good, low]]);
        let seat = self.random.between(1, table.sheet.seats as u64) as usize;
        let entries = [Entry::Hole { seat, cards }, Entry::Board { card: low }];
        Fields::of(n, &self.random.pick(&entries))
    }

    fn out_of_range(&mut self, table: &Table) -> Fields {
        let legal = if self.random.chance(50) {
            self.legal(table)
        } else {
            Fields::of(table.taken + 1, &self.wild(table))
        };
        let seats = table.sheet.seats as u64;
        let word = self.random.pick(&["raise", "bet", "a", "sits", "si", "voidvoid", "allin", "zzzzzzzz"]);
        let n = self.random.pick(&[0, 1_000_001, 999_999_999]);
        let seat = self.random.pick(&[0, seats + 1, 11, 999_999_999, 256 + legal.seat]);
        let a = self.random.pick(&[0, 1, 19, 52, 255, 256, 1_000_001, 100_000_001, 999_999_999]);
        let b = self.random.pick(&[1, 19, 52, 999_999_999]);
        match self.random.between(0, 5) {
            0 => Fields { word: word.to_string(), ..legal },
            1 => Fields { n, ..legal },
            2 | 3 => Fields { seat, ..legal },
            4 => Fields { a, ..legal },
            _ => Fields { b, ..legal },
        }
    }

    /// A random entry that meets this code, if one turns up.
    fn refused_with(&mut self, code: u8, table: &Table) -> Entry {
        let mut entry = self.wild(table);
        for _ in 0..TRIES {
            if table.refusal(table.taken + 1, &entry) == code {
                break;
            }
            entry = self.wild(table);
        }
        entry
    }

    /// Any of the twelve kinds with numbers in range, without regard to rules.
    fn wild(&mut self, table: &Table) -> Entry {
        let any = self.random.between(1, table.sheet.seats as u64) as usize;
        let seat = if table.turn() > 0 && self.random.chance(50) { table.turn() } else { any };
        match self.random.between(0, 11) {
            0 => Entry::Sit { seat: any, chips: self.wild_chips(table) },
            1 => Entry::Leave { seat: any },
            2 => Entry::Hand { puck: any },
            3 => Entry::Hole { seat: any, cards: [self.wild_card(table), self.wild_card(table)] },
            4 => Entry::Fold { seat: any },
            5 => Entry::Check { seat },
            6 => Entry::Call { seat },
            7 => Entry::Wager { seat, to: self.wild_wager(table, seat) },
            8 => Entry::Board { card: self.wild_card(table) },
            9 => Entry::Dead { seat: any },
            10 => Entry::Settle,
            _ => Entry::Void,
        }
    }

    fn wild_chips(&mut self, table: &Table) -> u64 {
        let left = MOST_CHIPS - table.chips();
        self.random.pick(&[1, 1_000_000, left, left + 1]).clamp(1, 1_000_000)
    }

    /// Half of the time a card that already lies in the hand.
    fn wild_card(&mut self, table: &Table) -> Card {
        let lies = |card: &Card| table.hand.as_ref().is_some_and(|hand: &Hand| hand.has_card(*card));
        let used: Vec<Card> = (0..52).filter(lies).collect();
        let deck: Vec<Card> = cards_of(table.sheet.deck).collect();
        let any = self.random.pick(&deck);
        let used = self.random.one_of(&used).unwrap_or(any);
        self.random.pick(&[used, any])
    }

    /// On and beside every border that Betting knows.
    fn wild_wager(&mut self, table: &Table, seat: usize) -> u64 {
        let (mark, lift) = table.hand.as_ref().map_or((0, 0), |hand| (hand.mark, hand.lift));
        let whole = table.dealt(seat).map_or(0, |dealt| dealt.round_total) + table.stack(seat);
        let any = self.random.of_any_size(MOST_CHIPS);
        let borders = [mark, mark + lift, whole, any, MOST_CHIPS];
        let border = self.random.pick(&borders);
        self.random.pick(&[border.saturating_sub(1), border, border + 1]).clamp(1, MOST_CHIPS)
    }
}
