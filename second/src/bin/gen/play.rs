//! A player of all seats at once: chooses what happens next, legally.

use crate::profile::Profile;
use second::entries::{cards_of, Card, Entry};
use second::random::Random;
use second::seats::Seat;
use second::table::{Hand, Table};

pub const MOST_CHIPS: u64 = 100_000_000;
const GREAT_STACK: u64 = 2_000_000;
/// How many hands of a hundred have that board, with the deck of 32.
const CLASH: u64 = 30;

pub struct Player {
    pub random: Random,
    pub profile: &'static Profile,
    mood: Mood,
}

/// How this hand goes; rolled anew for each.
#[derive(Default)]
struct Mood {
    /// The board makes the best hand for everyone.
    tie: bool,
    /// The board of the deck of 32 has three of a suit and a pair.
    clash: bool,
    /// Hole cards are entered at once, and not only before `settle`.
    cards_early: bool,
    /// Nobody raises, short raises aside.
    quiet: bool,
}

/// Ten to ace, and a full house: boards that few hole cards can better.
const TIE_BOARDS: [[Card; 5]; 2] = [[32, 37, 42, 47, 48], [48, 49, 50, 44, 45]];
const TIE_BOARDS_FROM: Card = 32;

/// Seven, eight and ten of a suit, another ten and a king: some make a flush
/// with it and some a full house.
const CLASH_BOARD: [Card; 5] = [20, 24, 32, 33, 45];

/// Of that suit, or of a rank that lies there.
fn joins_clash(card: Card) -> bool {
    card % 4 == 0 || CLASH_BOARD.iter().any(|lies| lies / 4 == card / 4)
}

/// Might leave. Who has won much stays, or no table would ever be full.
fn is_restless(table: &Table, seat: Seat) -> bool {
    table.chairs[seat].is_some() && table.stack(seat) < GREAT_STACK
}

impl Player {
    pub fn new(random: Random, profile: &'static Profile) -> Player {
        Player { random, profile, mood: Mood::default() }
    }

    pub fn next_entry(&mut self, table: &Table) -> Entry {
        match &table.hand {
            None => self.between_hands(table),
            Some(hand) => self.inside_hand(table, hand),
        }
    }

    fn seats(&self, table: &Table, wanted: impl Fn(Seat) -> bool) -> Vec<Seat> {
        table.seats().filter(|seat| wanted(*seat)).collect()
    }

    pub fn sit(&mut self, table: &Table, seat: Seat) -> Entry {
        let left = MOST_CHIPS - table.chips();
        Entry::Sit { seat, chips: self.profile.chips(&mut self.random, table.sheet.big, left) }
    }

    fn between_hands(&mut self, table: &Table) -> Entry {
        let empty = self.seats(table, |seat| table.chairs[seat].is_none());
        let full = table.chips() > MOST_CHIPS - 10;
        let restless = self.seats(table, |seat| is_restless(table, seat) || full && table.stack(seat) > 0);
        let rich = self.seats(table, |seat| table.stack(seat) > 0);
        let broke = self.seats(table, |seat| table.chairs[seat].is_some() && table.stack(seat) == 0);
        if self.random.chance(if full { 20 } else { self.profile.leave }) && !restless.is_empty() {
            let greatest = restless.iter().copied().max_by_key(|seat| table.stack(*seat)).unwrap_or(1);
            let any = self.random.pick(&restless);
            return Entry::Leave { seat: self.random.pick(&[any, greatest]) };
        }
        if !broke.is_empty() && (rich.len() < 2 || self.random.chance(70)) {
            return Entry::Leave { seat: self.random.pick(&broke) };
        }
        if !empty.is_empty() && (rich.len() < 2 || self.random.chance(70)) {
            let seat = self.random.pick(&empty);
            return self.sit(table, seat);
        }
        self.mood = Mood {
            // Four hole cards for each seat are more than the cards kept off the boards that make ties.
            tie: self.random.chance(self.profile.tie) && table.sheet.game == 2,
            clash: self.random.chance(CLASH) && table.sheet.deck == 32,
            cards_early: self.random.chance(50),
            quiet: self.random.chance(10),
        };
        let some = self.random.one_of(&rich).unwrap_or(1);
        Entry::Hand { puck: table.last_puck.and_then(|last| table.next_with_chips(last)).unwrap_or(some) }
    }

    fn inside_hand(&mut self, table: &Table, hand: &Hand) -> Entry {
        let chairs = self.change_chairs(table);
        let dead = self.go_dead(table, hand);
        let hole = self.hole(table, hand);
        let early = self.mood.cards_early && self.random.chance(60);
        match (chairs, dead, hole) {
            (Some(entry), _, _) | (_, Some(entry), _) => entry,
            (_, _, Some(entry)) if early => entry,
            _ if table.someone_owes() => self.act(table, hand),
            _ if table.live_count() == 1 => Entry::Settle,
            _ if hand.board.len() < 5 => Entry::Board { card: self.board_card(table, hand) },
            // Sometimes too early: 10.
            (_, _, Some(entry)) if !self.random.chance(15) => entry,
            _ => Entry::Settle,
        }
    }

    /// A player out of the hand leaves; another sits down, at once if he can.
    fn change_chairs(&mut self, table: &Table) -> Option<Entry> {
        let gone = self.seats(table, |seat| table.chairs[seat].is_none());
        let freed = self.seats(table, |seat| table.dealt(seat).is_some() && table.chairs[seat].is_none());
        let out = self.seats(table, |seat| is_restless(table, seat) && !table.is_live(seat));
        let seat = self.random.one_of(if freed.is_empty() { &gone } else { &freed });
        if let Some(seat) = seat.filter(|_| self.random.chance(if freed.is_empty() { 3 } else { 40 })) {
            return Some(self.sit(table, seat));
        }
        let churn = self.random.chance(self.profile.churn);
        self.random.one_of(&out).filter(|_| churn && self.random.chance(40)).map(|seat| Entry::Leave { seat })
    }

    /// Above all the one who has put in most, so that his chips lie alone.
    fn go_dead(&mut self, table: &Table, hand: &Hand) -> Option<Entry> {
        if table.live_count() < 2 || !self.random.chance(self.profile.dead) {
            return None;
        }
        let live = self.seats(table, |seat| table.is_live(seat));
        let most = live.iter().copied().max_by_key(|seat| table.dealt(*seat).map(|dealt| dealt.total))?;
        let any = self.random.pick(&live);
        let turn = if hand.turn > 0 { hand.turn } else { any };
        Some(Entry::Dead { seat: self.random.pick(&[most, most, any, turn]) })
    }

    fn hole(&mut self, table: &Table, hand: &Hand) -> Option<Entry> {
        let lacking = |seat| table.dealt(seat).is_some_and(|dealt| dealt.live && table.lacks_cards(dealt));
        let lacking = self.seats(table, lacking);
        let seat = self.random.one_of(&lacking)?;
        let first = self.fresh_card(table, hand, None);
        let second = self.fresh_card(table, hand, Some(first));
        Some(Entry::Hole { seat, cards: [first, second] })
    }

    /// A card of the deck that is not in the hand, nor this one; kept off the
    /// boards that make ties, as long as there are others.
    fn fresh_card(&mut self, table: &Table, hand: &Hand, but: Option<Card>) -> Card {
        let free = |card: &Card| !hand.has_card(*card) && but != Some(*card);
        let free: Vec<Card> = cards_of(table.sheet.deck).filter(free).collect();
        let low: Vec<Card> = free.iter().copied().filter(|card| *card < TIE_BOARDS_FROM).collect();
        let hot: Vec<Card> = free.iter().copied().filter(|card| joins_clash(*card)).collect();
        match self.mood {
            Mood { clash: true, .. } if !hot.is_empty() && self.random.chance(60) => self.random.pick(&hot),
            Mood { tie: true, .. } if !low.is_empty() => self.random.pick(&low),
            _ => self.random.pick(&free),
        }
    }

    fn board_card(&mut self, table: &Table, hand: &Hand) -> Card {
        let board = if self.mood.clash { CLASH_BOARD } else { TIE_BOARDS[hand.puck % TIE_BOARDS.len()] };
        let free: Vec<Card> = board.into_iter().filter(|card| !hand.has_card(*card)).collect();
        if (self.mood.tie || self.mood.clash) && !free.is_empty() {
            return self.random.pick(&free);
        }
        self.fresh_card(table, hand, None)
    }

    /// The seat in turn folds, checks, calls or wagers.
    fn act(&mut self, table: &Table, hand: &Hand) -> Entry {
        let seat = hand.turn;
        let round_total = table.dealt(seat).map_or(0, |dealt| dealt.round_total);
        let whole = round_total + table.stack(seat);
        let short = whole > hand.mark && whole < hand.mark + hand.lift;
        if self.random.chance(self.profile.fold) {
            return Entry::Fold { seat };
        }
        let raise = if short { self.profile.short } else { self.profile.raise.max(self.profile.all_in) };
        let raise = if self.mood.quiet && !short { 0 } else { raise };
        // Who may only call or fold tries it all the same, now and then: 7.
        let raise = if hand.may_only_call_or_fold(seat) { 25 } else { raise };
        if whole > hand.mark && self.random.chance(raise) {
            return Entry::Wager { seat, to: self.wager_to(table, hand, whole) };
        }
        if round_total == hand.mark {
            return Entry::Check { seat };
        }
        Entry::Call { seat }
    }

    /// The whole stack, the least raise, something between, or an amount that
    /// leaves another seat only a short raise.
    fn wager_to(&mut self, table: &Table, hand: &Hand, whole: u64) -> u64 {
        let least = hand.mark + hand.lift;
        if whole <= least || self.random.chance(self.profile.all_in) {
            return whole;
        }
        let some = self.random.between(least, whole);
        let double = self.random.between(least, whole.min(2 * least));
        let victim = self.short_raiser(table, hand, whole).unwrap_or(double);
        self.random.pick(&[least, some, double, double, victim, victim, victim])
    }

    /// An amount so that some other live seat's whole stack lies above it,
    /// but by less than it rises.
    fn short_raiser(&mut self, table: &Table, hand: &Hand, whole: u64) -> Option<u64> {
        let live = self.seats(table, |seat| seat != hand.turn && table.stack(seat) > 0);
        let other = self.random.one_of(&live)?;
        let theirs = table.dealt(other)?.round_total + table.stack(other);
        let low = (hand.mark + hand.lift).max((hand.mark + theirs) / 2 + 1);
        let high = theirs.saturating_sub(1).min(whole);
        (low <= high).then(|| self.random.between(low, high))
    }
}
