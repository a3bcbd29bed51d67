//! A random input of two tables: hands that are played to the end, royal flushes of all kinds, full pools, and damage.

use second::entries::Card;
use second::pair::{pieces, Pair, Piece};
use second::pots::by_levels;
use second::random::Random;
use second::table::{Dealt, Hand, Table};
use second::text::{LF, SHEET_KEYS};

/// How the royal flush of a hand lies: which seat has how many of its cards in the hole.
#[derive(Clone, Copy)]
struct Plan {
    suit: Card,
    seat: usize,
    hole: usize,
    /// The holder leaves the hand with so many board cards: 9 for never.
    out_at: usize,
    /// All others fold once the board lies.
    alone: bool,
}

struct Maker {
    random: Random,
    pair: Pair,
    plans: [Option<Plan>; 2],
}

/// The whole input, of at least so many blocks.
pub fn input(seed: u64, blocks: u64) -> Vec<u8> {
    let mut random = Random::new(seed);
    let opening = opening(&mut random);
    let lines: Vec<&[u8]> = opening.split_inclusive(|byte| *byte == LF).collect();
    let pair = Pair::open(&lines, by_levels).expect("a good opening");
    let mut maker = Maker { random, pair, plans: [None; 2] };
    let mut out = opening.clone();
    for _ in 0..blocks {
        let text = maker.next();
        out.extend(text);
    }
    maker.end(out)
}

fn opening(random: &mut Random) -> Vec<u8> {
    let most = 999_999_999;
    let near = most - random.between(0, 3_000);
    let any = random.between(0, most);
    let held = random.pick(&[0, 1, 5_000, most, near, near, any]);
    let mut text = format!("pool={held}\n");
    for _ in 0..2 {
        let big = random.between(1, 20);
        let game = random.pick(&[2, 2, 2, 4]);
        for key in SHEET_KEYS {
            let value = match key {
                "seats" => random.pick(&[2, 3, 6, 9, 10, 10]),
                "small" => random.between(1, big),
                "big" => big,
                "rate" => random.between(0, 100),
                "cap" => random.between(0, 50),
                "step" => random.pick(&[1, 1, 5]),
                "game" => game,
                "deck" => if game == 2 { random.pick(&[52, 52, 32]) } else { 52 },
                _ => { let any = random.between(1, 1_000); random.pick(&[0, 1, 7, any, 1_000, 1_000]) }
            };
            text += &format!("{key}={value}\n");
        }
    }
    text.into_bytes()
}

fn royal(suit: Card) -> impl Iterator<Item = Card> {
    (8..13).map(move |rank| 4 * rank + suit)
}

impl Maker {
    /// Some bytes more; the maker's own tables hear them too.
    fn next(&mut self) -> Vec<u8> {
        let table = self.random.between(1, 2) as usize;
        let block = self.block(table);
        let mut text = format!("table={table}\n").into_bytes();
        text.extend(&block);
        let text = match self.random.between(1, 100) {
            1..=4 => self.damaged(text),
            5 => [self.stray(), text].concat(),
            6 => self.right(table),
            _ => text,
        };
        let lines: Vec<&[u8]> = text.split_inclusive(|byte| *byte == LF).collect();
        for piece in pieces(&lines) {
            if !matches!(piece, Piece::NoTable(_)) {
                self.pair.answer(&piece);
            }
        }
        text
    }

    /// The end of the input: whole, within a line or a block, behind a lone `table` line, or in lines of no table; now and then the opening is bad.
    fn end(&mut self, mut out: Vec<u8>) -> Vec<u8> {
        match self.random.between(1, 12) {
            1 => out.truncate(out.len() - self.random.between(1, 30) as usize),
            2 => out.extend(b"table=1\n"),
            3 => out.extend(b"table=2"),
            4 => out.extend(b"what\nis this"),
            5 => out.extend(b"table=2\nn=1\ndo=sit\nseat=1\na=5\nb=0"),
            _ => (),
        }
        if self.random.chance(6) {
            return self.bad_opening(out);
        }
        out
    }

    fn bad_opening(&mut self, out: Vec<u8>) -> Vec<u8> {
        let mut lines: Vec<Vec<u8>> = out.split_inclusive(|byte| *byte == LF).map(<[u8]>::to_vec).collect();
        let place = self.random.between(0, 18) as usize;
        match self.random.between(1, 5) {
            1 => lines[place] = b"pool=1000000000\n".to_vec(),
            2 => { lines.remove(place); }
            3 => lines.truncate(place),
            4 => lines[place].insert(0, b' '),
            _ => lines[place] = [lines[place].as_slice(), &lines[place].clone()].concat(),
        }
        lines.concat()
    }

    fn stray(&mut self) -> Vec<u8> {
        let lines = ["", "table=3", "table=0", "table=01", "table=1 ", "Table=1", "n=1", "table=12", "pool=5", "table=1000000000", "table"];
        let count = self.random.between(1, 3);
        let mut text = String::new();
        for _ in 0..count {
            let line = if self.random.chance(10) { "x".repeat(50) } else { self.random.pick(&lines).to_string() };
            text += &format!("{line}\n");
        }
        text.into_bytes()
    }

    /// A correction, good or not: its number, then whatever.
    fn right(&mut self, table: usize) -> Vec<u8> {
        let n = self.random.pick(&["1", "0", "999999999", "12", "01", "x", "1000000000"]);
        let word = self.random.pick(&["fold", "Fold", "void", ""]);
        format!("table={table}\nright={n}\ndo={word}\nseat=1\na=0\nb=0\n").into_bytes()
    }

    /// A line left out, doubled, put in or changed, or the block cut short.
    fn damaged(&mut self, text: Vec<u8>) -> Vec<u8> {
        let mut lines: Vec<Vec<u8>> = text.split_inclusive(|byte| *byte == LF).map(<[u8]>::to_vec).collect();
        let place = self.random.between(0, 5) as usize;
        match self.random.between(1, 6) {
            1 => { lines.remove(place); }
            2 => lines.insert(place, lines[place].clone()),
            3 => lines.insert(place, self.stray()),
            4 => lines.truncate(place + 1),
            5 => lines[place] = [b"x".repeat(40), lines[place].clone()].concat(),
            _ => lines[place] = format!("table={}\n", self.random.between(1, 2)).into_bytes(),
        }
        lines.concat()
    }

    /// The next five lines for a table: an entry that is taken as a rule.
    fn block(&mut self, at: usize) -> Vec<u8> {
        let table = self.pair.tables[at - 1].clone();
        let n = table.taken + 1;
        let (word, seat, a, b) = match &table.hand {
            None => self.between_hands(&table, at),
            Some(hand) => self.in_hand(&table, hand, at),
        };
        let n = if self.random.chance(2) { n + 1 } else { n };
        format!("n={n}\ndo={word}\nseat={seat}\na={a}\nb={b}\n").into_bytes()
    }

    fn between_hands(&mut self, table: &Table, at: usize) -> (&'static str, u64, u64, u64) {
        let with_chips: Vec<usize> = table.seats().filter(|seat| table.stack(*seat) > 0).collect();
        let empty: Vec<usize> = table.seats().filter(|seat| table.chairs[*seat].is_none()).collect();
        let broke: Vec<usize> = table.seats().filter(|seat| table.chairs[*seat].is_some() && table.stack(*seat) == 0).collect();
        if let (Some(seat), true) = (broke.first(), self.random.chance(70)) {
            return ("leave", *seat as u64, 0, 0);
        }
        if let (Some(seat), true) = (self.random.one_of(&empty), with_chips.len() < 2 || self.random.chance(40)) {
            let most = self.random.pick(&[30, 200, 5_000, 1_000_000]);
            return ("sit", seat as u64, self.random.between(1, most), 0);
        }
        let puck = table.last_puck.and_then(|last| table.next_with_chips(last)).or(with_chips.first().copied()).unwrap_or(1);
        self.plans[at - 1] = self.plan(&with_chips);
        ("hand", puck as u64, 0, 0)
    }

    fn plan(&mut self, seats: &[usize]) -> Option<Plan> {
        if !self.random.chance(35) {
            return None;
        }
        Some(Plan {
            suit: self.random.between(0, 3) as Card,
            seat: self.random.one_of(seats)?,
            hole: self.random.pick(&[2, 2, 2, 1, 0]),
            out_at: self.random.pick(&[9, 9, 9, 9, 5, 4, 3]),
            alone: self.random.chance(20),
        })
    }

    fn in_hand(&mut self, table: &Table, hand: &Hand, at: usize) -> (&'static str, u64, u64, u64) {
        let plan = self.plans[at - 1];
        let lying = hand.board.len();
        let live: Vec<usize> = table.seats().filter(|seat| table.is_live(*seat)).collect();
        let lacking: Vec<usize> = live.iter().copied().filter(|seat| table.dealt(*seat).is_some_and(|d| table.lacks_cards(d))).collect();
        let away = plan.is_some_and(|plan| lying >= plan.out_at && live.contains(&plan.seat) && live.len() > 1);
        if let (Some(plan), true) = (plan, away) {
            let in_turn = table.turn() == plan.seat && self.random.chance(50);
            return (if in_turn { "fold" } else { "dead" }, plan.seat as u64, 0, 0);
        }
        let gone: Vec<usize> = table.seats().filter(|seat| !table.is_live(*seat) && table.is_still_there(*seat)).collect();
        if let (Some(seat), true) = (self.random.one_of(&gone), self.random.chance(10)) {
            return ("leave", seat as u64, 0, 0);
        }
        let seat = lacking.iter().copied().find(|seat| plan.is_some_and(|plan| plan.seat == *seat)).or(self.random.one_of(&lacking));
        if let (Some(seat), true) = (seat, lying < 3 || table.turn() == 0 && lying == 5) {
            if live.len() > 1 && (table.turn() == 0 || self.random.chance(60)) {
                let [a, b] = self.hole(table, hand, seat, plan);
                return ("hole", seat as u64, a, b);
            }
        }
        if table.turn() > 0 {
            return self.act(table, hand, plan);
        }
        if live.len() > 1 && lying < 5 {
            return ("board", 0, self.board_card(table, hand, plan).into(), 0);
        }
        ("settle", 0, 0, 0)
    }

    fn act(&mut self, table: &Table, hand: &Hand, plan: Option<Plan>) -> (&'static str, u64, u64, u64) {
        let turn = table.turn();
        let dealt: &Dealt = table.dealt(turn).expect("the turn is a dealt-in seat's");
        let alone = plan.is_some_and(|plan| plan.alone && plan.seat != turn && hand.board.len() == 5);
        let folds = alone || self.random.chance(4);
        if folds && plan.is_none_or(|plan| plan.seat != turn) {
            return ("fold", turn as u64, 0, 0);
        }
        let whole = table.stack(turn) + dealt.round_total;
        if self.random.chance(12) {
            let more = hand.mark + hand.lift + self.random.between(0, 30);
            let to = self.random.pick(&[more.min(whole), more.min(whole), whole]);
            if table.wager_is_allowed(hand, dealt, turn, to) {
                return ("wager", turn as u64, to, 0);
            }
        }
        (if dealt.round_total < hand.mark { "call" } else { "check" }, turn as u64, 0, 0)
    }

    fn free_card(&mut self, table: &Table, hand: &Hand, plan: Option<Plan>) -> Card {
        let least = if table.sheet.deck == 32 { 20 } else { 0 };
        loop {
            let card = self.random.between(least, 51) as Card;
            let kept = plan.is_some_and(|plan| royal(plan.suit).any(|of| of == card));
            if !hand.has_card(card) && !kept {
                return card;
            }
        }
    }

    fn hole(&mut self, table: &Table, hand: &Hand, seat: usize, plan: Option<Plan>) -> [u64; 2] {
        if let Some(plan) = plan.filter(|plan| plan.seat == seat) {
            let held: Vec<Card> = table.dealt(seat).map(|dealt| dealt.cards.clone()).unwrap_or_default();
            let own = royal(plan.suit).filter(|card| held.contains(card)).count();
            let mut cards: Vec<Card> = royal(plan.suit).filter(|card| !hand.has_card(*card)).take(plan.hole.saturating_sub(own)).collect();
            while cards.len() < 2 {
                let card = self.free_card(table, hand, Some(plan));
                if !cards.contains(&card) {
                    cards.push(card);
                }
            }
            return [cards[0].into(), cards[1].into()];
        }
        let first = self.free_card(table, hand, plan);
        let mut second = self.free_card(table, hand, plan);
        while second == first && !self.random.chance(2) {
            second = self.free_card(table, hand, plan);
        }
        [first.into(), second.into()]
    }

    /// A royal card that is left over for the board, or any.
    fn board_card(&mut self, table: &Table, hand: &Hand, plan: Option<Plan>) -> Card {
        let Some(plan) = plan else { return self.free_card(table, hand, None) };
        let held = table.dealt(plan.seat).map(|dealt| dealt.cards.clone()).unwrap_or_default();
        let own = royal(plan.suit).filter(|card| held.contains(card)).count();
        let lying = royal(plan.suit).filter(|card| hand.board.contains(card)).count();
        let due = 5 - plan.hole.max(own);
        if held.len() >= 2 && lying < due && (5 - hand.board.len() <= due - lying || self.random.chance(70)) {
            if let Some(card) = royal(plan.suit).find(|card| !hand.has_card(*card)) {
                return card;
            }
        }
        self.free_card(table, hand, Some(plan))
    }
}
