//! "Opening" and "Betting": blinds, who owes, whose turn it is, and the acts.

use crate::entries::Card;
use crate::seats::{clockwise_after, clockwise_from, Seat};
use crate::table::{Act, Dealt, Hand, Sitter, Table};

impl Act {
    pub fn is_full_lift(self) -> bool {
        matches!(self, Act::Wager { full: true, .. })
    }

    pub fn is_short_lift(self) -> bool {
        matches!(self, Act::Wager { full: false, .. })
    }
}

impl Hand {
    /// The last full lift of the round and what came after it; the whole
    /// round, if none came.
    pub fn acts_since_full_lift(&self) -> &[(Seat, Act)] {
        let last = self.acts.iter().rposition(|(_, act)| act.is_full_lift());
        &self.acts[last.unwrap_or(0)..]
    }

    /// Request No. 2: after a short lift a seat that made the last full lift
    /// or acted since it (or since the round opened, if none came) may only
    /// call or fold.
    pub fn may_only_call_or_fold(&self, seat: Seat) -> bool {
        let since = self.acts_since_full_lift();
        since.iter().any(|(_, act)| act.is_short_lift()) && since.iter().any(|(who, _)| *who == seat)
    }
}

impl Table {
    /// Live, has chips, hasn't acted since the last wager of this round by
    /// another, and two hands or more are live; but the only live seat with
    /// chips owes nothing once its round total equals the mark.
    pub fn owes(&self, seat: Seat) -> bool {
        let (Some(hand), Some(dealt)) = (&self.hand, self.dealt(seat)) else { return false };
        let could = dealt.live && self.stack(seat) > 0 && !dealt.acted;
        could
            && self.live_count() >= 2
            && !(dealt.round_total == hand.mark && self.is_only_live_with_chips(seat))
    }

    fn is_only_live_with_chips(&self, seat: Seat) -> bool {
        self.seats().all(|other| other == seat || !self.is_live(other) || self.stack(other) == 0)
    }

    pub fn someone_owes(&self) -> bool {
        self.seats().any(|seat| self.owes(seat))
    }

    /// The first of these seats that owes, or 0.
    fn first_owing(&self, mut seats: impl Iterator<Item = Seat>) -> Seat {
        seats.find(|seat| self.owes(*seat)).unwrap_or(0)
    }

    /// The seat that holds the turn, or 0.
    pub fn turn(&self) -> Seat {
        self.hand.as_ref().map_or(0, |hand| hand.turn)
    }

    /// The amount is one a seat may wager to, and the seat may raise.
    pub fn wager_is_allowed(&self, hand: &Hand, dealt: &Dealt, seat: Seat, to: u64) -> bool {
        self.amount_is_allowed(hand, dealt, seat, to) && !hand.may_only_call_or_fold(seat)
    }

    /// Above the mark, within the stack, and either a full lift or all of it.
    pub fn amount_is_allowed(&self, hand: &Hand, dealt: &Dealt, seat: Seat, to: u64) -> bool {
        let stack = self.stack(seat);
        let in_reach = to > hand.mark && to - dealt.round_total <= stack;
        in_reach && (to >= hand.mark + hand.lift || to - dealt.round_total == stack)
    }

    pub(crate) fn hand_mut(&mut self) -> &mut Hand {
        self.hand.as_mut().expect("asked only while a hand is open")
    }

    pub(crate) fn dealt_mut(&mut self, seat: Seat) -> &mut Dealt {
        self.hand_mut().dealt[seat].as_mut().expect("asked only for a seat dealt in")
    }

    /// Opens a hand: every seat with at least one chip is dealt in.
    pub(crate) fn open(&mut self, puck: Seat) {
        let dealt_in = |sitter: &Sitter| Dealt {
            sitting: sitter.sitting,
            total: 0,
            round_total: 0,
            live: true,
            acted: false,
            cards: Vec::new(),
        };
        let with_chips = |chair: &Option<Sitter>| chair.as_ref().filter(|s| s.stack > 0).map(dealt_in);
        let dealt = self.chairs.iter().map(with_chips).collect();
        let big_blind = self.next_with_chips(puck).expect("two seats or more hold chips");
        let (mark, lift) = (self.sheet.big, self.sheet.big);
        self.last_puck = Some(puck);
        let (board, acts) = (Vec::new(), Vec::new());
        self.hand = Some(Hand { puck, board, mark, lift, acts, turn: 0, dealt });
        self.pay(puck, self.sheet.small);
        self.pay(big_blind, self.sheet.big);
        self.pass_turn(big_blind);
    }

    /// Puts in that much, or the whole stack if it is less.
    fn pay(&mut self, seat: Seat, chips: u64) {
        let chips = chips.min(self.stack(seat));
        if let Some(sitter) = &mut self.chairs[seat] {
            sitter.stack -= chips;
        }
        let dealt = self.dealt_mut(seat);
        dealt.round_total += chips;
        dealt.total += chips;
    }

    /// The turn goes to the first owing seat clockwise from this one.
    fn pass_turn(&mut self, seat: Seat) {
        self.hand_mut().turn = self.first_owing(clockwise_after(seat, self.sheet.seats));
    }

    pub(crate) fn acted(&mut self, seat: Seat, act: Act) {
        self.hand_mut().acts.push((seat, act));
        self.dealt_mut(seat).acted = true;
        self.pass_turn(seat);
    }

    /// A fold, or a hand declared dead in or out of turn.
    pub(crate) fn drop_hand(&mut self, seat: Seat) {
        self.dealt_mut(seat).live = false;
        if self.turn() == seat {
            self.pass_turn(seat);
        } else if !self.someone_owes() {
            self.hand_mut().turn = 0;
        }
    }

    pub(crate) fn call(&mut self, seat: Seat) {
        let below_mark = self.hand_mut().mark - self.dealt_mut(seat).round_total;
        self.pay(seat, below_mark);
        self.acted(seat, Act::Call);
    }

    pub(crate) fn wager(&mut self, seat: Seat, to: u64) {
        let more = to - self.dealt_mut(seat).round_total;
        self.pay(seat, more);
        let hand = self.hand_mut();
        let rise = to - hand.mark;
        let full = rise >= hand.lift;
        hand.mark = to;
        if full {
            hand.lift = rise;
        }
        hand.dealt.iter_mut().flatten().for_each(|dealt| dealt.acted = false);
        self.acted(seat, Act::Wager { rise, full });
    }

    pub(crate) fn lay_board(&mut self, card: Card) {
        let hand = self.hand_mut();
        hand.board.push(card);
        if hand.board.len() >= 3 {
            self.open_round();
        }
    }

    /// Round totals and mark 0, lift `big`, nobody has acted, and the puck
    /// seat itself is the first to be asked.
    fn open_round(&mut self) {
        let (big, seats) = (self.sheet.big, self.sheet.seats);
        let hand = self.hand_mut();
        (hand.mark, hand.lift) = (0, big);
        hand.acts.clear();
        for dealt in hand.dealt.iter_mut().flatten() {
            (dealt.round_total, dealt.acted) = (0, false);
        }
        let puck = hand.puck;
        self.hand_mut().turn = self.first_owing(clockwise_from(puck, seats));
    }
}
