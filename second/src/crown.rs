//! Request No. 14: one round of Crown Hold'em, written from source document 002
//! and the request's readings alone. A wager's outcome is a fraction of its
//! stake, counted in whole stakes; cards are read by counting, not by choosing.

pub const KEYS: [&str; 16] = [
    "ante", "jackpot", "extra", "dealer", "fold", "turn", "river", "p1", "p2", "d1", "d2", "b1", "b2", "b3",
    "b4", "b5",
];
const MOST_STAKE: u64 = 100_000;

/// The ranking of hands of 3.44, low to high, so that comparing is `<`.
#[derive(Clone, Copy, Debug, PartialEq, Eq, PartialOrd, Ord)]
pub enum Ranking {
    FiveOddCards,
    OnePair,
    TwoPair,
    ThreeOfAKind,
    Straight,
    Flush,
    FullHouse,
    FourOfAKind,
    StraightFlush,
    RoyalFlush,
}

use Ranking::*;

/// A ranking and the face values that decide within it, as one number to the base 16.
pub type Worth = (Ranking, u64);

/// The best five of any number of cards, by counts of ranks and suits: no five are ever chosen.
pub fn worth(cards: &[u64]) -> Worth {
    let mut ranks = [0usize; 15];
    let mut suits = [[false; 15]; 4];
    for card in cards {
        let (rank, suit) = ((card / 4 + 2) as usize, (card % 4) as usize);
        ranks[rank] += 1;
        suits[suit][rank] = true;
    }
    let flush_suit = suits.iter().find(|suit| suit.iter().filter(|held| **held).count() >= 5);
    if let Some(suit) = flush_suit {
        match row_top(suit) {
            Some(14) => return (RoyalFlush, 14),
            Some(top) => return (StraightFlush, top),
            None => {}
        }
    }
    let held: [bool; 15] = std::array::from_fn(|rank| ranks[rank] > 0);
    let of_at_least = |count: usize, but: &[u64]| {
        (2..15u64).rev().find(|rank| ranks[*rank as usize] >= count && !but.contains(rank))
    };
    let kickers = |many: usize, but: &[u64]| {
        let rest = (2..15u64).rev().filter(|rank| ranks[*rank as usize] > 0 && !but.contains(rank));
        rest.take(many).fold(0, |sum, rank| sum * 16 + rank)
    };
    if let Some(four) = of_at_least(4, &[]) {
        return (FourOfAKind, four * 16 + kickers(1, &[four]));
    }
    let three = of_at_least(3, &[]);
    if let Some(three) = three {
        if let Some(pair) = of_at_least(2, &[three]) {
            return (FullHouse, three * 16 + pair);
        }
    }
    if let Some(suit) = flush_suit {
        let top: Vec<u64> = (2..15).rev().filter(|rank| suit[*rank as usize]).take(5).collect();
        return (Flush, top.iter().fold(0, |sum, rank| sum * 16 + rank));
    }
    if let Some(top) = row_top(&held) {
        return (Straight, top);
    }
    if let Some(three) = three {
        return (ThreeOfAKind, three << 8 | kickers(2, &[three]));
    }
    if let Some(high) = of_at_least(2, &[]) {
        if let Some(low) = of_at_least(2, &[high]) {
            return (TwoPair, high << 8 | low << 4 | kickers(1, &[high, low]));
        }
        return (OnePair, high << 12 | kickers(3, &[high]));
    }
    (FiveOddCards, kickers(5, &[]))
}

/// The top of the highest five ranks in a row; "Ace low in the combination of 5/4/3/2/Ace".
fn row_top(held: &[bool; 15]) -> Option<u64> {
    let is_held = |rank: u64| held[if rank == 1 { 14 } else { rank as usize }];
    (5..15u64).rev().find(|top| (top - 4..=*top).all(is_held))
}

/// Table 3, "to 1"; nothing for a hand that it does not list.
fn poker_extra(ranking: Ranking) -> Option<u64> {
    match ranking {
        RoyalFlush => Some(1_000),
        StraightFlush => Some(500),
        FourOfAKind => Some(200),
        FullHouse => Some(70),
        Flush => Some(40),
        Straight => Some(30),
        ThreeOfAKind => Some(10),
        TwoPair => Some(5),
        OnePair | FiveOddCards => None,
    }
}

/// What of a jackpot wager is handed over, in whole wagers: Table 2's prize,
/// the wager itself where Table 1's progressive prizes stay out, or nothing.
fn jackpot(ranking: Ranking) -> u64 {
    match ranking {
        RoyalFlush | StraightFlush => 1,
        FourOfAKind => 500,
        FullHouse => 100,
        Flush => 50,
        Straight => 25,
        _ => 0,
    }
}

/// What comes back, in the order of the answer, and all that was put in.
#[derive(Debug, PartialEq, Eq)]
pub struct Settlement {
    pub back: [u64; 7],
    pub staked: u64,
}

/// The sixteen numbers of a block, in the order of `KEYS`.
pub fn settle(numbers: &[u64; 16]) -> Result<Settlement, u8> {
    let [ante, jackpot_wager, extra, dealer_extra, fold, turn, river, ref cards @ ..] = *numbers;
    let side_wagers = [jackpot_wager, extra, dealer_extra];
    let wagers_good =
        (1..=MOST_STAKE).contains(&ante) && side_wagers.iter().all(|wager| *wager <= MOST_STAKE);
    let choice_good = matches!((fold, turn, river), (0, 0 | 1, 0 | 1) | (1, 0, 0));
    if !wagers_good || !choice_good || cards.iter().any(|card| *card > 51) {
        return Err(2);
    }
    let mut sorted = cards.to_vec();
    sorted.sort_unstable();
    sorted.dedup();
    if sorted.len() < cards.len() {
        return Err(8);
    }
    let (player, dealer, board) = (&cards[..2], &cards[2..4], &cards[4..]);
    let with = |hole: &[u64], many: usize| worth(&[hole, &board[..many]].concat());
    let (players, dealers) = (with(player, 5), with(dealer, 5));
    let (players_flop, dealers_flop) = (with(player, 3).0, with(dealer, 3).0);
    // In whole stakes: 0 lost, 1 a Stand Off, 2 paid 1 to 1.
    let play = match players.cmp(&dealers) {
        std::cmp::Ordering::Less => 0,
        std::cmp::Ordering::Equal => 1,
        std::cmp::Ordering::Greater => 2,
    };
    let ante_factor = if play == 2 && players.0 < Flush { 1 } else { play };
    let extra_factor = |ranking| poker_extra(ranking).map_or(0, |odds| odds + 1);
    let stays = 1 - fold;
    let stakes = [ante, 2 * ante * stays, ante * turn, ante * river, jackpot_wager, extra, dealer_extra];
    let factors = [
        stays * ante_factor,
        play,
        play,
        play,
        stays * jackpot(players_flop),
        stays * extra_factor(players_flop),
        extra_factor(dealers_flop),
    ];
    Ok(Settlement {
        back: std::array::from_fn(|place| stakes[place] * factors[place]),
        staked: stakes.iter().sum(),
    })
}

/// The answer to a block of sixteen lines, or to what there is of one.
pub fn answer(block: &[u8], output: &mut Vec<u8>) {
    let numbers = crate::text::values(block, KEYS).and_then(|values| {
        let numbers: Option<Vec<u64>> = values.iter().map(|value| crate::text::number(value)).collect();
        numbers.and_then(|numbers| numbers.try_into().ok())
    });
    match numbers.map(|numbers: [u64; 16]| settle(&numbers)) {
        None => line(output, "code", 1),
        Some(Err(code)) => line(output, "code", u64::from(code)),
        Some(Ok(settlement)) => settled(&settlement, output),
    }
}

fn settled(settlement: &Settlement, output: &mut Vec<u8>) {
    line(output, "code", 0);
    for (key, back) in
        ["ante", "flop", "turn", "river", "jackpot", "extra", "dealer"].iter().zip(settlement.back)
    {
        line(output, key, back);
    }
    let back = settlement.back.iter().sum::<u64>();
    line(output, "staked", settlement.staked);
    line(output, "back", back);
    line(output, "won", back.saturating_sub(settlement.staked));
    line(output, "lost", settlement.staked.saturating_sub(back));
}

fn line(output: &mut Vec<u8>, key: &str, number: u64) {
    output.extend_from_slice(format!("{key}={number}\n").as_bytes());
}

/// All answers to an input: sixteen LFs to a block, the rest at the end.
pub fn answers(input: &[u8]) -> Vec<u8> {
    let mut output = Vec::new();
    let (mut start, mut lines) = (0, 0);
    for (place, byte) in input.iter().enumerate() {
        lines += usize::from(*byte == b'\n');
        if lines == KEYS.len() {
            answer(&input[start..=place], &mut output);
            (start, lines) = (place + 1, 0);
        }
    }
    if start < input.len() {
        answer(&input[start..], &mut output);
    }
    output
}

#[cfg(test)]
mod tests {
    use super::*;
    use crate::hands;

    /// All 2,598,960 fives: the counting and the choosing reader agree, class by class and rank by rank.
    #[test]
    fn counting_agrees_with_choosing_on_all_fives() {
        let mut count = 0;
        for a in 0..52u64 {
            for b in a + 1..52 {
                for c in b + 1..52 {
                    for d in c + 1..52 {
                        for e in d + 1..52 {
                            let (ranking, _) = worth(&[a, b, c, d, e]);
                            let five = hands::five_value(52, [a, b, c, d, e].map(|card| card as u8));
                            let class = if ranking == RoyalFlush { 8 } else { ranking as usize };
                            assert_eq!(class, five.class);
                            assert_eq!(ranking == RoyalFlush, five.class == 8 && five.ranks[0] == 14);
                            count += 1;
                        }
                    }
                }
            }
        }
        assert_eq!(count, 2_598_960);
    }

    /// Which of two sevens is higher, by counting and by all 21 choices.
    #[test]
    fn counting_compares_sevens_as_choosing_does() {
        let mut random = crate::random::Random::new(7);
        for _ in 0..200_000 {
            let (one, other) = (random.seven_cards(), random.seven_cards());
            let chosen = hands::best_of_seven(52, one.map(|card| card as u8))
                .cmp(&hands::best_of_seven(52, other.map(|card| card as u8)));
            assert_eq!(worth(&one).cmp(&worth(&other)), chosen, "{one:?} {other:?}");
        }
    }

    /// A card from its rank and suit, as the request numbers it.
    const fn card(rank: u64, suit: u64) -> u64 {
        4 * (rank - 2) + suit
    }

    fn round(wagers: [u64; 7], cards: [u64; 9]) -> [u64; 16] {
        std::array::from_fn(|place| if place < 7 { wagers[place] } else { cards[place - 7] })
    }

    /// Player: a flush of spades with the board; dealer: a pair.
    const FLUSH: [u64; 9] = [
        card(14, 3),
        card(9, 3),
        card(14, 0),
        card(13, 1),
        card(2, 3),
        card(5, 3),
        card(7, 3),
        card(13, 0),
        card(11, 2),
    ];

    #[test]
    fn an_ante_wins_with_a_flush() {
        let settled = settle(&round([10, 1, 2, 3, 0, 1, 1], FLUSH)).unwrap();
        // The flop flush pays Table 2 (50 times) and Table 3 (40 to 1).
        assert_eq!(settled, Settlement { back: [20, 40, 20, 20, 50, 82, 0], staked: 56 });
    }

    #[test]
    fn a_fold_keeps_only_the_dealers_extra() {
        let mut cards = FLUSH;
        cards[2] = card(2, 0);
        cards[3] = card(5, 1);
        let settled = settle(&round([10, 1, 2, 3, 1, 0, 0], cards)).unwrap();
        // The dealer's two pair on hole and flop cards: 5 to 1.
        assert_eq!(settled, Settlement { back: [0, 0, 0, 0, 0, 0, 18], staked: 16 });
    }

    #[test]
    fn two_comes_before_eight() {
        let mut numbers = round([10, 0, 0, 0, 0, 0, 0], FLUSH);
        numbers[8] = numbers[7];
        assert_eq!(settle(&numbers), Err(8));
        numbers[15] = 52;
        assert_eq!(settle(&numbers), Err(2));
        let lone = |wagers| settle(&round(wagers, FLUSH)).err();
        assert_eq!(lone([0, 0, 0, 0, 0, 0, 0]), Some(2));
        assert_eq!(lone([100_001, 0, 0, 0, 0, 0, 0]), Some(2));
        assert_eq!(lone([100_000, 100_000, 100_000, 100_000, 0, 1, 1]), None);
        assert_eq!(lone([1, 0, 0, 0, 1, 1, 0]), Some(2));
        assert_eq!(lone([1, 0, 0, 0, 2, 0, 0]), Some(2));
    }
}
