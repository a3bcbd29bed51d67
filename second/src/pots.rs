//! "Chip heights and pots": what is contested, what is returned, who is due what.

use crate::seats::{clockwise_after, Seat};

/// What the sitting dealt in at one seat has put in. A seat that was not
/// dealt in has put in nothing and is not live.
#[derive(Clone, Copy, Debug, Default, PartialEq)]
pub struct Stake {
    pub total: u64,
    pub live: bool,
}

/// A set of seats: bit s stands for seat s.
type SeatSet = u16;

#[derive(Clone, Debug, PartialEq)]
pub struct Pot {
    pub amount: u64,
    pub contenders: SeatSet,
}

/// The pots from the lowest, and each seat's chips at returned heights.
#[derive(Clone, Debug, Default, PartialEq)]
pub struct Pots {
    pub pots: Vec<Pot>,
    pub returned: Vec<u64>,
}

/// How pots are counted; both ways must give the same.
pub type PotRule = fn(&[Stake]) -> Pots;

/// Above this, counting height by height takes too long.
const HIGHEST_COUNTED: u64 = 4_000;

/// The paper's rule to the letter as far as it goes in reasonable time.
pub fn literally(stakes: &[Stake]) -> Pots {
    if top(stakes) > HIGHEST_COUNTED {
        return by_levels(stakes);
    }
    let pots = by_heights(stakes);
    debug_assert_eq!(pots, by_levels(stakes));
    pots
}

/// One height after the other.
pub fn by_heights(stakes: &[Stake]) -> Pots {
    let mut pots = Pots::empty(stakes.len());
    for height in 1..=top(stakes) {
        pots.lay(stakes, height, 1);
    }
    pots
}

/// From one total to the next higher one all heights have the same chips, so
/// they are laid together.
pub fn by_levels(stakes: &[Stake]) -> Pots {
    let mut pots = Pots::empty(stakes.len());
    let mut below = 0;
    while let Some(level) = next_level(stakes, below) {
        pots.lay(stakes, level, level - below);
        below = level;
    }
    pots
}

fn top(stakes: &[Stake]) -> u64 {
    stakes.iter().map(|stake| stake.total).max().unwrap_or(0)
}

fn next_level(stakes: &[Stake], below: u64) -> Option<u64> {
    stakes.iter().map(|stake| stake.total).filter(|total| *total > below).min()
}

fn set_of(stakes: &[Stake], wanted: impl Fn(&Stake) -> bool) -> SeatSet {
    stakes.iter().enumerate().map(|(seat, stake)| SeatSet::from(wanted(stake)) << seat).sum()
}

fn members(set: SeatSet) -> impl Iterator<Item = Seat> {
    (0..SeatSet::BITS as Seat).filter(move |seat| is_in(*seat, set))
}

fn is_in(seat: Seat, set: SeatSet) -> bool {
    set >> seat & 1 == 1
}

impl Pots {
    fn empty(places: usize) -> Pots {
        Pots { pots: Vec::new(), returned: vec![0; places] }
    }

    /// Adds `alike` heights that all look like this one. A height above a
    /// returned one is returned too, so a pot's run is never interrupted.
    fn lay(&mut self, stakes: &[Stake], height: u64, alike: u64) {
        let chips = set_of(stakes, |stake| stake.total >= height);
        let contenders = set_of(stakes, |stake| stake.total >= height && stake.live);
        if chips.count_ones() < 2 || contenders == 0 {
            members(chips).for_each(|seat| self.returned[seat] += alike);
            return;
        }
        let amount = u64::from(chips.count_ones()) * alike;
        match self.pots.last_mut() {
            Some(pot) if pot.contenders == contenders => pot.amount += amount,
            _ => self.pots.push(Pot { amount, contenders }),
        }
    }

    /// Sum of returned heights, in chips.
    pub fn back(&self) -> u64 {
        self.returned.iter().sum()
    }

    /// The shares of a hand at a table that feeds no pool.
    pub fn share<H: Ord>(&self, commission: Commission, puck: Seat, hands: &[H]) -> Shares {
        self.share_and_drop(commission, 0, puck, hands)
    }

    /// Commission, drop and what each seat's sitting is due, still there or not.
    /// `hands` are compared only where a pot has two contenders or more.
    pub fn share_and_drop<H: Ord>(
        &self,
        commission: Commission,
        drop: u64,
        puck: Seat,
        hands: &[H],
    ) -> Shares {
        let mut shares = Shares { fee: 0, drop: 0, due: self.returned.clone(), divided: Vec::new() };
        let mut remains = Vec::new();
        for pot in &self.pots {
            let fee = commission.fee(pot.amount, shares.fee);
            shares.fee += fee;
            remains.push(pot.amount - fee);
        }
        // No. 7: a hand with a board card pays into the pool, out of what the
        // commission has left of its lowest pot.
        if let (Some(lowest), 1..) = (remains.first_mut(), commission.board_cards) {
            shares.drop = drop.min(*lowest);
            *lowest -= shares.drop;
        }
        for (pot, remains) in self.pots.iter().zip(remains) {
            let best = members(pot.contenders).map(|seat| &hands[seat]).max();
            let winners: Vec<Seat> = clockwise_after(puck, hands.len() - 1)
                .filter(|seat| is_in(*seat, pot.contenders) && Some(&hands[*seat]) == best)
                .collect();
            shares.divide(remains, &winners);
        }
        shares
    }
}

#[derive(Clone, Copy, Debug)]
pub struct Commission {
    pub rate: u64,
    pub cap: u64,
    /// The room's smallest chip.
    pub step: u64,
    pub board_cards: usize,
}

impl Commission {
    /// A pot's fee when lower pots have paid `so_far`: rounded down to whole
    /// chips before the cap, and the capped fee once more.
    fn fee(&self, amount: u64, so_far: u64) -> u64 {
        if self.board_cards == 0 {
            return 0;
        }
        let rounded = self.in_chips(amount * self.rate / 1000);
        self.in_chips(rounded.min(self.cap - so_far))
    }

    fn in_chips(&self, fee: u64) -> u64 {
        fee - fee % self.step
    }
}

#[derive(Clone, Debug, PartialEq)]
pub struct Shares {
    pub fee: u64,
    pub drop: u64,
    pub due: Vec<u64>,
    /// Each pot after its fee and drop, and the number of its winners.
    pub divided: Vec<(u64, u64)>,
}

impl Shares {
    /// Equal shares; odd units go one each in the order of the winners.
    fn divide(&mut self, amount: u64, winners: &[Seat]) {
        let count = winners.len() as u64;
        self.divided.push((amount, count));
        for (place, seat) in (0..).zip(winners) {
            self.due[*seat] += amount / count + u64::from(place < amount % count);
        }
    }
}
