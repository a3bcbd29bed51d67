//! Height by height against the closed form, and what must hold of both.

use second::pots::{by_heights, by_levels, Commission, Stake};
use second::random::Random;

fn random_stakes(random: &mut Random) -> Vec<Stake> {
    let seats = random.between(2, 10);
    let most = random.pick(&[3, 10, 100, 2_000]);
    let stake = |_| Stake { total: random.between(0, most), live: random.chance(60) };
    std::iter::once(Stake::default()).chain((0..seats).map(stake)).collect()
}

#[test]
fn heights_and_levels_agree() {
    let mut random = Random::new(7);
    for _ in 0..3_000 {
        let stakes = random_stakes(&mut random);
        assert_eq!(by_heights(&stakes), by_levels(&stakes), "{stakes:?}");
    }
}

#[test]
fn nothing_is_made_or_lost() {
    let mut random = Random::new(8);
    for _ in 0..3_000 {
        let stakes = random_stakes(&mut random);
        let hands: Vec<u64> = stakes.iter().map(|_| random.between(1, 3)).collect();
        let puck = random.between(1, stakes.len() as u64 - 1) as usize;
        let (rate, cap) = (random.between(0, 100), random.between(0, 50));
        let (step, board_cards) = (random.between(1, 9), random.between(0, 5) as usize);
        let commission = Commission { rate, cap, step, board_cards };
        let pots = by_levels(&stakes);
        let shares = pots.share(commission, puck, &hands);
        let put_in: u64 = stakes.iter().map(|stake| stake.total).sum();
        assert_eq!(shares.fee + shares.due.iter().sum::<u64>(), put_in);
        assert!(pots.pots.len() <= 9 && shares.fee <= cap);
        assert!(shares.fee.is_multiple_of(step) && (board_cards > 0 || shares.fee == 0));
    }
}

#[test]
fn great_totals() {
    let [first, second] = [40_000_000, 60_000_000].map(|total| Stake { total, live: true });
    let pots = by_levels(&[Stake::default(), first, second]);
    assert_eq!((pots.pots[0].amount, pots.back()), (80_000_000, 20_000_000));
}
