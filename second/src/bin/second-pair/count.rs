//! What occurred in inputs of two tables, and what must.

use second::pair::{pieces, royal_of, said_bytes, Pair, Piece, Said, MOST, OPENING_LINES};
use second::pots::by_levels;
use second::table::{Dealt, Hand, Table};
use second::text::LF;
use std::collections::BTreeMap;

const DEMANDED: [&str; 35] = [
    "opening bad",
    "opening with a full pool",
    "no block",
    "table 1: whole block",
    "table 2: whole block",
    "cut short after 0 lines",
    "cut short after 1 lines",
    "cut short after 2 lines",
    "cut short after 3 lines",
    "cut short after 4 lines",
    "cut short at the end",
    "no table: one line",
    "no table: more lines",
    "code 14",
    "settled without a board card",
    "settled: drop 0 by the sheet",
    "settled: whole drop",
    "settled: drop cut at the pot",
    "settled: part to the house",
    "settled: all to the house",
    "royal wins: two hole cards",
    "royal wins: game 4",
    "royal wins: deck 32",
    "royal wins: sole live seat",
    "royal wins: a full pool",
    "royal wins: an empty pool's own drop",
    "royal: one hole card, no win",
    "royal: no hole card, no win",
    "royal: folded or dead holder, no win",
    "a win at table 1",
    "a win at table 2",
    "an answer of 28 lines",
    "pool full at the end",
    "house at the end above 0",
    "unclaimed chips",
];

type Counts = BTreeMap<String, u64>;

pub fn count(files: &[&str], demand: bool) {
    let mut counts = Counts::new();
    let mut broken = 0;
    for file in files {
        let input = std::fs::read(file).expect("the input can be read");
        broken += look(&input, &mut counts);
    }
    counts.iter().for_each(|(name, times)| println!("{times:8} {name}"));
    let missed: Vec<&&str> = DEMANDED.iter().filter(|name| !counts.contains_key(**name)).collect();
    missed.iter().for_each(|name| println!("missed: {name}"));
    if demand && (broken > 0 || !missed.is_empty()) {
        std::process::exit(1);
    }
}

fn add(counts: &mut Counts, name: impl Into<String>) {
    *counts.entry(name.into()).or_default() += 1;
}

/// Counts one input; how many bounds it broke.
fn look(input: &[u8], counts: &mut Counts) -> u64 {
    let lines: Vec<&[u8]> = input.split_inclusive(|byte| *byte == LF).collect();
    let Some(mut pair) = Pair::open(&lines, by_levels) else {
        add(counts, "opening bad");
        return 0;
    };
    if pair.books.pool() == MOST {
        add(counts, "opening with a full pool");
    }
    let all = pieces(&lines[OPENING_LINES..]);
    if all.is_empty() {
        add(counts, "no block");
    }
    let mut broken = 0;
    for piece in &all {
        let before = pair.tables.clone();
        let pool = pair.books.pool();
        let said = pair.answer(piece);
        look_at(piece, &said, counts);
        if let Some(win) = said.win {
            look_at_settled(&before[said.table - 1], &pair, pool, win, counts);
        }
        broken += look_at_bounds(&pair, &said, counts);
    }
    if pair.books.pool() == MOST {
        add(counts, "pool full at the end");
    }
    if pair.books.house() > 0 {
        add(counts, "house at the end above 0");
    }
    broken
}

fn look_at(piece: &Piece, said: &Said, counts: &mut Counts) {
    match piece {
        Piece::Whole(table, _) => add(counts, format!("table {table}: whole block")),
        Piece::Cut(_, lines, false) => add(counts, format!("cut short after {lines} lines")),
        Piece::Cut(_, _, true) => add(counts, "cut short at the end"),
        Piece::NoTable(1) => add(counts, "no table: one line"),
        Piece::NoTable(_) => add(counts, "no table: more lines"),
    }
    let Some(answer) = &said.answer else { return };
    add(counts, format!("code {}", answer.code));
    if answer.settlement.as_ref().is_some_and(|settled| settled.unclaimed > 0) {
        add(counts, "unclaimed chips");
    }
    if said_bytes(answer, said.win).iter().filter(|byte| **byte == LF).count() == 28 {
        add(counts, "an answer of 28 lines");
    }
}

/// A hand that was settled, by the table as it stood before.
fn look_at_settled(table: &Table, pair: &Pair, pool: i128, win: i128, counts: &mut Counts) {
    let hand = table.hand.as_ref().expect("a hand was open");
    let played = pair.books.hands.last().expect("a hand was settled");
    let full = i128::from(table.sheet.drop);
    add(counts, match (hand.board.len(), table.pots().pots.len(), full, played.drop) {
        (0, _, _, _) => "settled without a board card",
        (_, 0, _, _) => "settled: no pot",
        (_, _, 0, _) => "settled: drop 0 by the sheet",
        (_, _, full, drop) if drop == full => "settled: whole drop",
        _ => "settled: drop cut at the pot",
    });
    if played.house > 0 {
        add(counts, if played.house == played.drop { "settled: all to the house" } else { "settled: part to the house" });
    }
    look_at_royal(table, hand, pool, win, counts);
    if win > 0 {
        add(counts, format!("a win at table {}", played.table));
    }
}

fn look_at_royal(table: &Table, hand: &Hand, pool: i128, win: i128, counts: &mut Counts) {
    if hand.board.len() < 5 {
        return;
    }
    let royal = |dealt: &Dealt| royal_of(&dealt.cards, &hand.board);
    let whole = |dealt: &&Dealt| dealt.cards.len() == table.sheet.game;
    if win > 0 {
        add(counts, "royal wins: two hole cards");
        let named = [
            (table.sheet.game == 4, "royal wins: game 4"),
            (table.sheet.deck == 32, "royal wins: deck 32"),
            (hand.live().count() == 1, "royal wins: sole live seat"),
            (win == MOST, "royal wins: a full pool"),
            (pool == 0, "royal wins: an empty pool's own drop"),
        ];
        named.iter().filter(|(is, _)| *is).for_each(|(_, name)| add(counts, *name));
        return;
    }
    for dealt in hand.dealt.iter().flatten().filter(whole) {
        match (royal(dealt), dealt.live) {
            (Some(2), false) => add(counts, "royal: folded or dead holder, no win"),
            (Some(1), true) => add(counts, "royal: one hole card, no win"),
            (Some(0), true) => add(counts, "royal: no hole card, no win"),
            _ => (),
        }
    }
}

/// The pool within its bounds, the books whole, and no answer above 28 lines and 560 bytes.
fn look_at_bounds(pair: &Pair, said: &Said, counts: &mut Counts) -> u64 {
    let books = &pair.books;
    let sum = |of: fn(&second::pair::Played) -> i128| books.hands.iter().rev().take(1).map(of).sum::<i128>();
    let last = sum(|hand| hand.drop) >= sum(|hand| hand.house);
    let bytes = said.answer.as_ref().map_or(Vec::new(), |answer| said_bytes(answer, said.win));
    let lines = bytes.iter().filter(|byte| **byte == LF).count();
    let good = (0..=MOST).contains(&books.pool()) && last && lines <= 28 && bytes.len() <= 560;
    if !good {
        add(counts, "BROKEN: a bound");
    }
    u64::from(!good)
}
