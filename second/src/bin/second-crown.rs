//! `second-crown < rounds > answers`: request No. 14, from document 002 alone.
//! `second-crown --gen SEED ROUNDS [--bad]`: random rounds that lean to strong hands; with --bad damaged blocks among them.
//! `second-crown --count < rounds`: how often each fate and code occurs, a line each.

use second::crown::{answers, settle, worth, Ranking, KEYS};
use second::random::Random;
use std::collections::BTreeMap;
use std::io::{self, Read, Write};

fn main() -> io::Result<()> {
    let words: Vec<String> = std::env::args().skip(1).collect();
    let mut output = io::stdout().lock();
    match words.first().map(String::as_str) {
        Some("--gen") => {
            let number = |place: usize| words.get(place).and_then(|word| word.parse().ok()).unwrap_or(1);
            let bad = words.iter().any(|word| word == "--bad");
            output.write_all(&rounds(number(1), number(2), bad))
        }
        Some("--count") => output.write_all(counted(&input()?).as_bytes()),
        _ => output.write_all(&answers(&input()?)),
    }
}

fn input() -> io::Result<Vec<u8>> {
    let mut bytes = Vec::new();
    io::stdin().lock().read_to_end(&mut bytes)?;
    Ok(bytes)
}

fn rounds(seed: u64, count: u64, bad: bool) -> Vec<u8> {
    let mut random = Random::new(seed);
    let mut output = Vec::new();
    for _ in 0..count {
        let mut numbers = round(&mut random);
        if random.chance(if bad { 40 } else { 3 }) {
            odd_number(&mut random, &mut numbers);
        }
        let mut block: Vec<u8> = KEYS
            .iter()
            .zip(numbers)
            .flat_map(|(key, number)| format!("{key}={number}\n").into_bytes())
            .collect();
        if bad && random.chance(30) {
            damage(&mut random, &mut block);
        }
        output.extend(block);
    }
    output
}

/// Sixteen good numbers. The cards are dealt from a short deck, which makes strong hands and ties common.
fn round(random: &mut Random) -> [u64; 16] {
    let mut deck = short_deck(random);
    let mut numbers = [0; 16];
    for number in &mut numbers[7..] {
        let place = random.between(0, deck.len() as u64 - 1) as usize;
        *number = deck.swap_remove(place);
    }
    if random.chance(25) {
        lay_together(random, &mut numbers);
    } else if random.chance(5) {
        lay_row(random, &mut numbers);
    }
    numbers[0] = stake(random, 1);
    for number in &mut numbers[1..4] {
        *number = if random.chance(30) { 0 } else { stake(random, 0) };
    }
    if random.chance(20) {
        numbers[4] = 1;
    } else {
        numbers[5] = random.between(0, 1);
        numbers[6] = random.between(0, 1);
    }
    numbers
}

fn stake(random: &mut Random, least: u64) -> u64 {
    let size = random.of_any_size(100_000);
    random.pick(&[size, size, 100_000, 99_999, least.max(1), least])
}

/// Nine cards or more: the whole deck, a few ranks, one or two suits, or ranks in a row.
fn short_deck(random: &mut Random) -> Vec<u64> {
    let all = 0..52u64;
    let low = random.between(0, 12);
    let ranks = random.between(3, 6);
    let suits = random.between(1, 2);
    match random.between(0, 4) {
        0 => all.collect(),
        1 => all.filter(|card| (card / 4 + 13 - low) % 13 * 5 % 13 < ranks).collect(),
        2 => all.filter(|card| (card + low) % 4 < suits).collect(),
        3 => all.filter(|card| (card / 4 + 13 - low) % 13 < ranks).collect(),
        _ => all.filter(|card| (card / 4 + 13 - low) % 13 < 6 && (card + low) % 4 < 2).collect(),
    }
}

/// Moves the strongest five of the cards into the player's or the dealer's hole and flop cards.
fn lay_together(random: &mut Random, numbers: &mut [u64; 16]) {
    let hole = random.pick(&[7usize, 9]);
    let places = [hole, hole + 1, 11, 12, 13];
    for _ in 0..6 {
        let (from, to) = (random.between(7, 15) as usize, random.pick(&places));
        let before = worth(&places.map(|place| numbers[place]));
        numbers.swap(from, to);
        if worth(&places.map(|place| numbers[place])) < before {
            numbers.swap(from, to);
        }
    }
}

/// A straight flush, often royal or to the five, as the player's or the dealer's hole and flop cards.
fn lay_row(random: &mut Random, numbers: &mut [u64; 16]) {
    let hole = random.pick(&[7usize, 9]);
    let any = random.between(0, 8);
    let (low, suit) = (random.pick(&[8, 8, 8, 12, any]), random.between(0, 3));
    for (step, place) in [hole, 11, hole + 1, 12, 13].into_iter().enumerate() {
        let card = 4 * ((low + step as u64) % 13) + suit;
        match (7..16).find(|other| numbers[*other] == card) {
            Some(other) => numbers.swap(other, place),
            None => numbers[place] = card,
        }
    }
}

/// A number outside its range, or a card twice, or both.
fn odd_number(random: &mut Random, numbers: &mut [u64; 16]) {
    for _ in 0..random.between(1, 2) {
        let place = random.between(0, 15) as usize;
        let twice = numbers[random.between(7, 15) as usize];
        numbers[place] = match place {
            0 => random.pick(&[0, 100_001, 999_999_999]),
            1..=3 => random.pick(&[100_001, 999_999_999, 100_000]),
            4..=6 => random.pick(&[1, 2, 999_999_999]),
            _ => random.pick(&[52, 255, 256, 307, 999_999_999, twice, twice, twice, twice]),
        };
    }
}

/// Bytes taken out, put in or changed; lines dropped, doubled or made too long.
fn damage(random: &mut Random, block: &mut Vec<u8>) {
    let place = random.between(0, block.len() as u64 - 1) as usize;
    let byte = random.pick(b"0179= \n\n\ra.-".as_slice());
    match random.between(0, 6) {
        0 => drop(block.remove(place)),
        1 => block.insert(place, byte),
        2 => block[place] = byte,
        3 => block.truncate(place),
        4 => block.splice(place..place, vec![b'7'; random.between(1, 80) as usize]).for_each(drop),
        5 => block.splice(place..place, vec![b'0'; random.between(1, 3) as usize]).for_each(drop),
        _ => {
            let end = (place + random.between(1, 12) as usize).min(block.len());
            block.extend_from_within(place..end);
        }
    }
}

/// What the rounds of an input came to: what a generator is held to.
fn counted(input: &[u8]) -> String {
    let mut counts: BTreeMap<String, u64> = BTreeMap::new();
    let lines: Vec<&[u8]> = input.split(|byte| *byte == b'\n').collect();
    for block in lines.chunks_exact(16) {
        let values =
            block.iter().map(|line| line.rsplit(|byte| *byte == b'=').next().and_then(second::text::number));
        let Some(numbers) =
            values.collect::<Option<Vec<u64>>>().and_then(|numbers| <[u64; 16]>::try_from(numbers).ok())
        else {
            *counts.entry("malformed".into()).or_default() += 1;
            continue;
        };
        for name in names(&numbers) {
            *counts.entry(name).or_default() += 1;
        }
    }
    counts.iter().map(|(name, count)| format!("{name} {count}\n")).collect()
}

fn names(numbers: &[u64; 16]) -> Vec<String> {
    let settlement = match settle(numbers) {
        Ok(settlement) => settlement,
        Err(code) => return vec![format!("code-{code}")],
    };
    let folded = numbers[4] == 1;
    let choice = if folded { "fold" } else { "stay" };
    let flop = |hole: &[u64]| -> Ranking { worth(&[hole, &numbers[11..14]].concat()).0 };
    let mut names = vec![format!("{choice}-ante-{}", settlement.back[0] / numbers[0])];
    if numbers[1] > 0 {
        names.push(format!("{choice}-jackpot-{:?}", flop(&numbers[7..9])));
    }
    if numbers[2] > 0 {
        names.push(format!("{choice}-extra-{:?}", flop(&numbers[7..9])));
    }
    if numbers[3] > 0 {
        names.push(format!("{choice}-dealer-{:?}", flop(&numbers[9..11])));
    }
    if settlement.back[1] > 0 {
        names.push(format!("flop-{}", settlement.back[1] / numbers[0] / 2));
    }
    names
}
