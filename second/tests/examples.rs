//! P1 to P12; what is expected stands in the paper.

mod play;

use play::{block, sheet_text, Play};
use second::clerk::answers_to;
use second::hands::{best_of_seven, five_value, read_hand, Strength, CLASSES};
use second::pots::{by_heights, by_levels, literally, Commission, Pots, Stake};
use std::cmp::Ordering;

/// Cards written as rank and suit, `A` `K` `Q` `J` `T` `9` .. `2` and `0` to `3`.
fn cards<const N: usize>(text: &str) -> [u8; N] {
    let card = |word: &str| {
        let (rank, suit) = word.split_at(1);
        let rank = "23456789TJQKA".find(rank).expect("a rank") as u8;
        4 * rank + suit.parse::<u8>().expect("a suit")
    };
    let cards: Vec<u8> = text.split(' ').map(card).collect();
    cards.try_into().expect("that many cards")
}

fn five(text: &str) -> Strength {
    five_value(52, cards(text))
}

fn short(text: &str) -> Strength {
    five_value(32, cards(text))
}

fn class(text: &str) -> &'static str {
    CLASSES[five(text).class]
}

#[test]
fn p1_to_p4_order_of_hands() {
    assert!(five("A0 21 32 43 50") < five("20 31 42 53 60"));
    assert_eq!(class("Q0 K1 A2 23 30"), "five odd cards");
    assert!(five("K0 K1 K2 Q0 Q1") > five("A0 K0 Q0 J0 90"));
    assert_eq!(class("A0 K0 Q0 J0 90"), "flush");
    assert_eq!(five("A0 K1 Q2 J3 90").cmp(&five("A1 K2 Q3 J0 91")), Ordering::Equal);
}

#[test]
fn the_nine_classes_in_order() {
    let low_to_high = [
        "A0 K1 Q2 J3 90",
        "20 21 33 40 51",
        "20 21 33 30 41",
        "20 21 22 33 40",
        "A0 21 32 43 50",
        "20 30 40 50 70",
        "20 21 22 33 30",
        "20 21 22 23 30",
        "A0 20 30 40 50",
    ];
    for (place, hand) in low_to_high.iter().enumerate() {
        assert_eq!(five(hand).class, place, "{hand}");
    }
    assert!(five("T0 J0 Q0 K0 A0") > five("90 T0 J0 Q0 K0"));
}

/// Known counts: 52 over 5 hands, 7,462 of them different in worth.
#[test]
fn all_hands_of_five() {
    let mut counts = [0; 9];
    let mut worths = std::collections::BTreeSet::new();
    for_each_five(0, |cards| {
        let strength = five_value(52, cards);
        counts[strength.class] += 1;
        worths.insert(strength);
    });
    assert_eq!(counts, [1_302_540, 1_098_240, 123_552, 54_912, 10_200, 5_108, 3_744, 624, 40]);
    assert_eq!(worths.len(), 7_462);
}

/// The deck of 32: 8 ranks, 5 rows of five that make a straight.
/// Straight flushes 5 x 4; four of a kind 8 x 28; full houses 8 x 4 x 7 x 6;
/// flushes (8 over 5, less 5) x 4; straights 5 x (1024 - 4); threes
/// 8 x 4 x 21 x 16; two pairs 28 x 36 x 24; pairs 8 x 6 x 35 x 64; odd cards
/// (56 - 5) x (1024 - 4). In all 32 over 5.
#[test]
fn all_hands_of_five_of_32() {
    let mut counts = [0; 9];
    let mut worths = std::collections::BTreeSet::new();
    for_each_five(20, |cards| {
        let strength = five_value(32, cards);
        counts[strength.class] += 1;
        worths.insert(strength);
    });
    assert_eq!(counts, [52_020, 107_520, 24_192, 10_752, 5_100, 204, 1_344, 224, 20]);
    assert_eq!(counts.iter().sum::<u64>(), 201_376);
    // Ranks alone: 51, 8 x 35, 28 x 6, 8 x 21, 5, 8 x 7, 51, 8 x 7, 5.
    assert_eq!(worths.len(), 840);
    let mut order: Vec<&str> = worths.iter().map(|strength| CLASSES[strength.class]).collect();
    order.dedup();
    let low_to_high = [
        "five odd cards",
        "pair",
        "two pair",
        "three",
        "straight",
        "full house",
        "flush",
        "four of a kind",
        "straight flush",
    ];
    assert_eq!(order, low_to_high);
    for class in [4, 8] {
        let least = worths.iter().find(|strength| strength.class == class).expect("one of that class");
        assert_eq!(least.ranks, [10, 9, 8, 7, 6]);
    }
}

/// Worked by hand: which of two fives of 32 cards is the better.
#[test]
fn the_order_of_32_cards() {
    assert!(short("A0 70 81 92 T3") < short("70 81 92 T3 J0"));
    assert!(short("A0 70 81 92 T3") > short("A0 A1 A2 K0 Q0"));
    assert!(short("A0 70 80 90 T0") < short("70 80 90 T0 J0"));
    assert!(short("A0 70 80 90 T0") > short("A0 A1 A2 A3 K0"));
    assert!(short("70 80 90 T0 Q0") > short("A0 A1 A2 K0 K1"));
    assert_eq!(short("A0 70 81 92 T3").cmp(&short("A1 71 82 93 T0")), Ordering::Equal);
    // In the other deck the same five are no straight.
    assert_eq!(class("A0 70 81 92 T3"), "five odd cards");
    assert_eq!(read_hand(32, &[20, 24, 28, 32, 50, 51, 19]), Err(2));
    assert_eq!(read_hand(32, &[20, 24, 28, 32, 50, 51, 51]), Err(8));
    assert!(read_hand(32, &[20, 24, 28, 32, 50, 51, 23]).is_ok());
}

/// Every five different cards from this one on.
fn for_each_five(least: u8, mut visit: impl FnMut([u8; 5])) {
    let mut cards = [0, 1, 2, 3, 4].map(|place| least + place);
    loop {
        visit(cards);
        // The last place that can still rise does, and those behind it follow.
        let Some(place) = (0..5).rev().find(|place| cards[*place] < 47 + *place as u8) else { return };
        cards[place] += 1;
        (place + 1..5).for_each(|later| cards[later] = cards[later - 1] + 1);
    }
}

#[test]
fn p5_and_p6_best_of_seven() {
    assert_eq!(best_of_seven(52, cards("K0 K1 90 91 40 41 A0")).ranks, [13, 13, 9, 9, 14]);
    assert_eq!(best_of_seven(52, cards("80 81 82 50 51 52 20")).ranks, [8, 8, 8, 5, 5]);
}

fn stakes(given: &[(u64, bool)]) -> Vec<Stake> {
    let seats = given.iter().map(|(total, live)| Stake { total: *total, live: *live });
    std::iter::once(Stake::default()).chain(seats).collect()
}

fn amounts(pots: &Pots) -> Vec<u64> {
    pots.pots.iter().map(|pot| pot.amount).collect()
}

const P7: [(u64, bool); 4] = [(100, true), (40, true), (200, true), (100, false)];
const P9: [(u64, bool); 3] = [(100, false), (100, false), (40, true)];

#[test]
fn p7_and_p9_pots_and_back() {
    for rule in [by_heights, by_levels, literally] {
        let pots = rule(&stakes(&P7));
        assert_eq!((amounts(&pots), pots.back()), (vec![160, 180], 100));
        let pots = rule(&stakes(&P9));
        assert_eq!((amounts(&pots), pots.back()), (vec![120], 120));
        assert_eq!(pots.returned, [0, 60, 60, 0]);
    }
}

#[test]
fn p8_fees() {
    let shared = |step, board_cards| {
        let commission = Commission { rate: 50, cap: 15, step, board_cards };
        literally(&stakes(&P7)).share(commission, 1, &[0, 3, 4, 3, 9])
    };
    assert_eq!(shared(1, 5).fee, 15);
    assert_eq!(shared(1, 5).divided, [(152, 1), (173, 2)]);
    // No. 3: with step 5 the fees are 5 and 5, and without a board card none.
    assert_eq!(shared(5, 5).divided, [(155, 1), (175, 2)]);
    assert_eq!(shared(1, 1).fee, 15);
    assert_eq!(shared(1, 0).divided, [(160, 1), (180, 2)]);
    // The second pot's 9 is rounded down to 8, cut at the 7 left of the cap, and rounded down to 6.
    assert_eq!(shared(2, 5).divided, [(152, 1), (174, 2)]);
}

#[test]
fn p10_odd_units() {
    // P7 again: the second pot, 173 after P8's fees, is contested by 1 and 3.
    let commission = Commission { rate: 50, cap: 15, step: 1, board_cards: 5 };
    let shares = literally(&stakes(&P7)).share(commission, 3, &[0, 3, 4, 3, 9]);
    assert_eq!(shares.due, [0, 87, 152, 86 + 100, 0]);
}

#[test]
fn p11_wagers() {
    let opened = |stack: &str| {
        let mut play = Play::new([3, 5, 10, 50, 15, 1]);
        play.take(&["sit 1 100", "sit 2 100", &format!("sit 3 {stack}"), "hand 1"]);
        play
    };
    let mut play = opened("500");
    assert_eq!([play.code("wager 3 19"), play.code("wager 3 20")], [7, 0]);
    let mut play = opened("17");
    assert_eq!(play.code("wager 3 17"), 0);
    assert_eq!([play.code("wager 1 26"), play.code("wager 1 27")], [7, 0]);
}

#[test]
fn p12_whole_output() {
    let entries = ["sit 1 100", "sit 2 100", "hand 1", "fold 1", "settle"];
    let blocks = (1..).zip(entries).map(|(n, entry)| block(n, entry));
    let log = sheet_text([3, 5, 10, 50, 15, 1]) + &blocks.collect::<String>();
    let expected = "n=1 code=0 turn=0 mark=0 back=0 n=2 code=0 turn=0 mark=0 back=0 \
        n=3 code=0 turn=1 mark=10 pot=10 back=5 n=4 code=0 turn=0 mark=10 pot=10 back=5 \
        n=5 code=0 turn=0 mark=0 back=0 fee=0 sitting=1 paid=0 sitting=2 paid=15 unclaimed=0 ";
    let answers = answers_to(log.as_bytes(), literally);
    assert_eq!(String::from_utf8(answers), Ok(expected.replace(' ', "\n")));
}
