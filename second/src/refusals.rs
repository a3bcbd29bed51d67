//! "Refusal numbers, in the order they are tested", from 3 on.

use crate::entries::Entry;
use crate::seats::Seat;
use crate::table::{Dealt, Hand, Table};

const MOST_CHIPS: u64 = 100_000_000;

impl Table {
    /// The first refusal that applies, or 0.
    pub fn refusal(&self, n: u64, entry: &Entry) -> u8 {
        if n != self.taken + 1 {
            3
        } else if self.wrong_moment(entry) {
            4
        } else if self.wrong_seat(entry) {
            5
        } else if self.out_of_turn(entry) {
            6
        } else if self.not_allowed(entry) {
            7
        } else if self.card_repeats(entry) {
            8
        } else if self.too_many_chips(entry) {
            9
        } else if self.cards_missing(entry) {
            10
        } else {
            0
        }
    }

    fn wrong_moment(&self, entry: &Entry) -> bool {
        let live = self.live_count();
        let lying = self.board_count();
        match entry {
            Entry::Sit { .. } | Entry::Leave { .. } => false,
            Entry::Hand { .. } => self.hand.is_some() || self.seats_with_chips() < 2,
            Entry::Hole { .. } => self.hand.is_none(),
            Entry::Fold { .. } | Entry::Check { .. } => !self.someone_owes(),
            Entry::Call { .. } | Entry::Wager { .. } => !self.someone_owes(),
            Entry::Board { .. } => self.someone_owes() || live < 2 || lying >= 5,
            Entry::Dead { .. } => live < 2,
            Entry::Settle => !(live == 1 || lying == 5 && !self.someone_owes()),
            Entry::Void => true,
        }
    }

    fn seats_with_chips(&self) -> usize {
        self.seats().filter(|seat| self.stack(*seat) > 0).count()
    }

    fn wrong_seat(&self, entry: &Entry) -> bool {
        match *entry {
            Entry::Sit { seat, .. } => self.chairs[seat].is_some(),
            Entry::Leave { seat } => self.chairs[seat].is_none() || self.is_live(seat),
            Entry::Hand { puck } => self.wrong_puck(puck),
            Entry::Hole { seat, .. } => {
                !self.dealt(seat).is_some_and(|dealt| dealt.live && self.lacks_cards(dealt))
            }
            Entry::Fold { seat } | Entry::Check { seat } | Entry::Call { seat } => !self.is_live(seat),
            Entry::Wager { seat, .. } | Entry::Dead { seat } => !self.is_live(seat),
            Entry::Board { .. } | Entry::Settle | Entry::Void => false,
        }
    }

    /// Fewer than the game's hole cards are entered.
    pub fn lacks_cards(&self, dealt: &Dealt) -> bool {
        dealt.cards.len() < self.sheet.game
    }

    /// The puck seat is dealt in, and after a first hand it is the first
    /// dealt-in seat clockwise after the last hand's puck.
    fn wrong_puck(&self, puck: Seat) -> bool {
        let moved_on = self.last_puck.map_or(Some(puck), |last| self.next_with_chips(last));
        self.stack(puck) == 0 || moved_on != Some(puck)
    }

    fn out_of_turn(&self, entry: &Entry) -> bool {
        match *entry {
            Entry::Fold { seat } | Entry::Check { seat } => seat != self.turn(),
            Entry::Call { seat } | Entry::Wager { seat, .. } => seat != self.turn(),
            _ => false,
        }
    }

    fn not_allowed(&self, entry: &Entry) -> bool {
        let (Entry::Check { seat } | Entry::Call { seat } | Entry::Wager { seat, .. }) = *entry else {
            return false;
        };
        let (Some(hand), Some(dealt)) = (&self.hand, self.dealt(seat)) else { return false };
        match *entry {
            Entry::Check { .. } => dealt.round_total != hand.mark,
            Entry::Call { .. } => dealt.round_total >= hand.mark,
            Entry::Wager { to, .. } => !self.wager_is_allowed(hand, dealt, seat, to),
            _ => false,
        }
    }

    fn card_repeats(&self, entry: &Entry) -> bool {
        let in_hand = |card| self.hand.as_ref().is_some_and(|hand| hand.has_card(card));
        match *entry {
            Entry::Hole { cards: [a, b], .. } => a == b || in_hand(a) || in_hand(b),
            Entry::Board { card } => in_hand(card),
            _ => false,
        }
    }

    fn too_many_chips(&self, entry: &Entry) -> bool {
        matches!(*entry, Entry::Sit { chips, .. } if self.chips() + chips > MOST_CHIPS)
    }

    fn cards_missing(&self, entry: &Entry) -> bool {
        let lacking = |hand: &Hand| hand.live().any(|dealt| self.lacks_cards(dealt));
        *entry == Entry::Settle && self.live_count() >= 2 && self.hand.as_ref().is_some_and(lacking)
    }
}
