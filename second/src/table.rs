//! The table: who sits where, the open hand, and what a taken entry does.

use crate::entries::{Card, Entry};
use crate::hands::{best_of_both, best_of_seven, Strength};
use crate::pots::{Commission, PotRule, Pots, Shares, Stake};
use crate::seats::{clockwise_after, Seat};
use crate::text::Sheet;

#[derive(Clone, Debug, PartialEq)]
pub struct Sitter {
    pub sitting: u64,
    pub stack: u64,
}

/// One sitting's part in the open hand. It stays when the sitting has left.
#[derive(Clone, Debug, PartialEq)]
pub struct Dealt {
    pub sitting: u64,
    pub total: u64,
    pub round_total: u64,
    pub live: bool,
    /// Has acted since the last wager of this round by another.
    pub acted: bool,
    /// As many as were entered, a pair at a time.
    pub cards: Vec<Card>,
}

/// What a seat did in a round of betting; a fold ends its part and is not kept.
#[derive(Clone, Copy, Debug, PartialEq)]
pub enum Act {
    Check,
    Call,
    /// `full` if it lifted the mark by at least the lift.
    Wager {
        rise: u64,
        full: bool,
    },
}

#[derive(Clone, Debug, PartialEq)]
pub struct Hand {
    pub puck: Seat,
    pub board: Vec<Card>,
    pub mark: u64,
    pub lift: u64,
    /// Of this round, in order.
    pub acts: Vec<(Seat, Act)>,
    /// 0 if none.
    pub turn: Seat,
    pub dealt: Vec<Option<Dealt>>,
}

/// What a taken `settle` adds to the answer.
#[derive(Clone, Debug, PartialEq)]
pub struct Settlement {
    pub fee: u64,
    /// Sitting and paid of each dealt-in seat, in rising order of seats.
    pub rows: Vec<(u64, u64)>,
    pub unclaimed: u64,
    /// Request No. 7: what the hand pays into the pool; no line shows it.
    pub drop: u64,
}

#[derive(Clone, Debug)]
pub struct Table {
    pub sheet: Sheet,
    pub taken: u64,
    pub sittings: u64,
    pub chairs: Vec<Option<Sitter>>,
    pub last_puck: Option<Seat>,
    pub hand: Option<Hand>,
    /// The drop in force: the sheet's where a pool is shared, else 0.
    drop: u64,
    pot_rule: PotRule,
}

impl Hand {
    pub fn live(&self) -> impl Iterator<Item = &Dealt> {
        self.dealt.iter().flatten().filter(|dealt| dealt.live)
    }

    pub fn stakes(&self) -> Vec<Stake> {
        let stake = |dealt: &Dealt| Stake { total: dealt.total, live: dealt.live };
        self.dealt.iter().map(|slot| slot.as_ref().map(stake).unwrap_or_default()).collect()
    }

    /// On the board or entered for any seat of this hand, folded or gone too.
    pub fn has_card(&self, card: Card) -> bool {
        let held = |dealt: &Dealt| dealt.cards.contains(&card);
        self.board.contains(&card) || self.dealt.iter().flatten().any(held)
    }

    /// The best five of each seat with all its cards, once five board cards lie.
    pub fn strengths(&self, sheet: &Sheet) -> Vec<Option<Strength>> {
        let strength = |slot: &Option<Dealt>| {
            let board: [Card; 5] = self.board.as_slice().try_into().ok()?;
            best_with(&slot.as_ref()?.cards, board, sheet)
        };
        self.dealt.iter().map(strength).collect()
    }
}

/// The best five by the game's and the deck's rule; nothing while some hole card is missing.
fn best_with(hole: &[Card], board: [Card; 5], &Sheet { game, deck, .. }: &Sheet) -> Option<Strength> {
    let [c, d, e, f, g] = board;
    match *hole {
        [a, b] if game == 2 => Some(best_of_seven(deck, [a, b, c, d, e, f, g])),
        [h, i, j, k] if game == 4 => Some(best_of_both(deck, [h, i, j, k], board)),
        _ => None,
    }
}

impl Table {
    pub fn new(sheet: Sheet, pot_rule: PotRule) -> Table {
        let chairs = vec![None; sheet.seats + 1];
        Table { sheet, taken: 0, sittings: 0, chairs, last_puck: None, hand: None, drop: 0, pot_rule }
    }

    /// A table that shares a pool (request No. 7).
    pub fn sharing(sheet: Sheet, pot_rule: PotRule) -> Table {
        Table { drop: sheet.drop, ..Table::new(sheet, pot_rule) }
    }

    pub fn seats(&self) -> std::ops::RangeInclusive<Seat> {
        1..=self.sheet.seats
    }

    pub fn stack(&self, seat: Seat) -> u64 {
        self.chairs[seat].as_ref().map_or(0, |sitter| sitter.stack)
    }

    pub fn dealt(&self, seat: Seat) -> Option<&Dealt> {
        self.hand.as_ref()?.dealt[seat].as_ref()
    }

    pub fn is_live(&self, seat: Seat) -> bool {
        self.dealt(seat).is_some_and(|dealt| dealt.live)
    }

    pub fn live_count(&self) -> usize {
        self.hand.as_ref().map_or(0, |hand| hand.live().count())
    }

    pub fn board_count(&self) -> usize {
        self.hand.as_ref().map_or(0, |hand| hand.board.len())
    }

    /// Does the sitting dealt in at this seat still sit there?
    pub fn is_still_there(&self, seat: Seat) -> bool {
        let dealt = self.dealt(seat).map(|dealt| dealt.sitting);
        dealt.is_some() && dealt == self.chairs[seat].as_ref().map(|sitter| sitter.sitting)
    }

    /// Stacks plus chips in the open hand, of sittings that left too.
    pub fn chips(&self) -> u64 {
        let stacks: u64 = self.chairs.iter().flatten().map(|sitter| sitter.stack).sum();
        let dealt = self.hand.iter().flat_map(|hand| hand.dealt.iter().flatten());
        stacks + dealt.map(|dealt| dealt.total).sum::<u64>()
    }

    pub fn pots(&self) -> Pots {
        self.hand.as_ref().map_or_else(Pots::default, |hand| (self.pot_rule)(&hand.stakes()))
    }

    /// How the open hand would be shared out.
    pub fn shares(&self) -> Option<Shares> {
        let hand = self.hand.as_ref()?;
        let Sheet { rate, cap, step, .. } = self.sheet;
        let commission = Commission { rate, cap, step, board_cards: hand.board.len() };
        Some(self.pots().share_and_drop(commission, self.drop, hand.puck, &hand.strengths(&self.sheet)))
    }

    /// The first seat clockwise after this one that holds chips.
    pub fn next_with_chips(&self, seat: Seat) -> Option<Seat> {
        clockwise_after(seat, self.sheet.seats).find(|next| self.stack(*next) > 0)
    }

    /// Takes the entry, or gives the refusal and changes nothing.
    pub fn take(&mut self, n: u64, entry: &Entry) -> Result<Option<Settlement>, u8> {
        let code = self.refusal(n, entry);
        if code != 0 {
            return Err(code);
        }
        self.taken += 1;
        match *entry {
            Entry::Sit { seat, chips } => self.sit(seat, chips),
            Entry::Leave { seat } => self.chairs[seat] = None,
            Entry::Hand { puck } => self.open(puck),
            Entry::Hole { seat, cards } => self.dealt_mut(seat).cards.extend(cards),
            Entry::Fold { seat } | Entry::Dead { seat } => self.drop_hand(seat),
            Entry::Check { seat } => self.acted(seat, Act::Check),
            Entry::Call { seat } => self.call(seat),
            Entry::Wager { seat, to } => self.wager(seat, to),
            Entry::Board { card } => self.lay_board(card),
            Entry::Settle => return Ok(self.settle()),
            Entry::Void => unreachable!("always refused with 4"),
        }
        Ok(None)
    }

    fn sit(&mut self, seat: Seat, chips: u64) {
        self.sittings += 1;
        self.chairs[seat] = Some(Sitter { sitting: self.sittings, stack: chips });
    }

    /// Shares out the pots, moves what is paid to the stacks of sittings
    /// still there, and closes the hand.
    fn settle(&mut self) -> Option<Settlement> {
        let shares = self.shares()?;
        let mut settlement = Settlement { fee: shares.fee, rows: Vec::new(), unclaimed: 0, drop: shares.drop };
        for (seat, due) in shares.due.into_iter().enumerate() {
            let Some(sitting) = self.dealt(seat).map(|dealt| dealt.sitting) else { continue };
            let paid = if self.is_still_there(seat) { due } else { 0 };
            settlement.unclaimed += due - paid;
            settlement.rows.push((sitting, paid));
            if let Some(sitter) = &mut self.chairs[seat] {
                sitter.stack += paid;
            }
        }
        self.hand = None;
        Some(settlement)
    }
}
