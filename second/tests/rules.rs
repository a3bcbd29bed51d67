//! Rules the paper's examples do not touch, and the readings decided on.

mod play;

use play::{block, sheet_of, sheet_text, Play};
use second::answer::answer_block;
use second::clerk::{answers_to, Clerk};
use second::pots::literally;

const SHEET: [u64; 6] = [4, 5, 10, 0, 0, 1];

fn opened() -> Play {
    let mut play = Play::new(SHEET);
    play.take(&["sit 1 100", "sit 2 100", "sit 3 100", "hand 1"]);
    play
}

fn output(text: &[u8]) -> String {
    String::from_utf8(answers_to(text, literally)).expect("answers are plain text")
}

#[test]
fn bad_sheets() {
    let good = sheet_text(SHEET);
    assert_eq!(output(good.as_bytes()), "");
    let mut bad: Vec<String> = ["", "seats=4", "\n\n\n\n\n"].map(String::from).to_vec();
    bad.push(good[..good.len() - 1].to_string());
    let changes = [
        ("seats=4", "seats=1"),
        ("seats=4", "seats=11"),
        ("small=5", "small=0"),
        ("small=5", "small=11"),
        ("big=10", "big=10001"),
        ("rate=0", "rate=101"),
        ("cap=0", "cap=1000001"),
        ("cap=0", "cap=00"),
        ("cap=0", "cap=0\r"),
        ("rate=0", "Rate=0"),
        ("rate=0\n", ""),
        ("rate=0", "rate=+0"),
        ("step=1", "step=0"),
        ("step=1", "step=1001"),
        ("step=1\n", ""),
        ("game=2", "game=3"),
        ("game=2", "game=0"),
        ("game=2\n", ""),
        ("deck=52", "deck=51"),
        ("deck=52", "deck=0"),
        ("deck=52\n", ""),
        ("game=2\ndeck=52", "game=4\ndeck=32"),
        ("drop=0", "drop=1001"),
        ("drop=0\n", ""),
    ];
    bad.extend(changes.map(|(from, to)| good.replace(from, to)));
    for sheet in bad {
        let log = sheet.clone() + &block(1, "sit 1 100");
        let log = if sheet.len() < good.len() { sheet } else { log };
        assert_eq!(output(log.as_bytes()), "code=11\n", "{log:?}");
    }
}

#[test]
fn malformed_blocks() {
    let good = block(1, "sit 1 100");
    let changes = [
        ("n=1\n", "n=01\n"),
        ("n=1\n", "n= 1\n"),
        ("n=1\n", "n=+1\n"),
        ("n=1\n", "n=1\r\n"),
        ("n=1\n", "n1\n"),
        ("n=1\n", "n=1234567890\n"),
        ("n=1\n", "n=\n"),
        ("do=sit", "do=Sit"),
        ("do=sit", "do="),
        ("do=sit", "do=abcdefghi"),
        ("a=100", "b=100"),
        ("a=100", "a=10\0"),
        ("a=100", "a=-1"),
        ("b=0", "b=00000000000000000000000000000000000"),
    ];
    for (from, to) in changes {
        let log = sheet_text(SHEET) + &good.replacen(from, to, 1) + &good;
        let expected = "n=0\ncode=1\nturn=0\nmark=0\nback=0\nn=1\ncode=0\nturn=0\nmark=0\nback=0\n";
        assert_eq!(output(log.as_bytes()), expected, "{to:?}");
    }
}

#[test]
fn a_block_ends_at_its_fifth_lf_or_not_at_all() {
    let log = sheet_text(SHEET) + &"x".repeat(100_000) + "\n\n\n\n\n" + "n=1";
    assert_eq!(output(log.as_bytes()).matches("n=0\ncode=1\n").count(), 2);
}

#[test]
fn any_cut_of_the_input_gives_the_same() {
    let log = sheet_text(SHEET) + &block(1, "sit 1 100") + &block(2, "sit 2 9") + &block(3, "hand 2") + "n=";
    let whole = answers_to(log.as_bytes(), literally);
    for size in 1..log.len() {
        let (mut clerk, mut out) = (Clerk::new(literally), Vec::new());
        log.as_bytes().chunks(size).for_each(|piece| clerk.feed(piece, &mut out));
        clerk.close(&mut out);
        assert_eq!(out, whole, "pieces of {size}");
    }
}

#[test]
fn ranges_come_before_n_and_the_n_read_is_shown() {
    let mut play = Play::new(SHEET);
    let entries = [
        "raise 1",
        "sit 5 1",
        "sit 0 1",
        "sit 1 0",
        "sit 1 1000001",
        "sit 1 1 1",
        "fold 1 1",
        "board 1 0",
        "settle 1",
        "hole 1 52 0",
        "hole 1 0 52",
        "wager 1 0",
        "wager 1 100000001",
        "void 0 0 1",
        "hand 0",
    ];
    for entry in entries {
        let answer = play.answer(entry);
        assert_eq!((answer.code, answer.n), (2, 1), "{entry}");
    }
    assert_eq!(play.code("void"), 4);
}

#[test]
fn moments_and_seats() {
    let mut play = Play::new(SHEET);
    assert_eq!(play.code("hand 1"), 4);
    play.take(&["sit 1 100", "sit 2 100", "sit 3 100"]);
    assert_eq!(
        ["sit 1 5", "leave 4", "hand 4", "hole 1 0 1", "settle"].map(|entry| play.code(entry)),
        [5, 5, 5, 4, 4]
    );
    play.take(&["hand 2"]);
    let refused =
        ["hand 3", "leave 1", "board 0 7", "fold 4", "fold 2", "settle", "dead 4", "check 1", "call 1"];
    assert_eq!(refused.map(|entry| play.code(entry)), [4, 5, 4, 5, 6, 4, 5, 7, 0]);
    play.take(&["hole 1 0 1"]);
    assert_eq!(["hole 1 2 3", "hole 2 1 5", "hole 2 5 5"].map(|entry| play.code(entry)), [5, 8, 8]);
}

#[test]
fn the_big_blind_keeps_its_option() {
    let mut play = opened();
    play.take(&["call 3", "call 1"]);
    assert_eq!(play.answer("board 0 1").turn, 2);
    assert_eq!(play.answer("check 2").turn, 0);
    play.take(&["board 0 1", "board 0 2"]);
    let flop = play.answer("board 0 3");
    assert_eq!((flop.turn, flop.mark), (1, 0));
}

#[test]
fn a_short_big_blind_does_not_lower_the_mark() {
    let mut play = Play::new(SHEET);
    play.take(&["sit 1 100", "sit 2 3"]);
    let opened = play.answer("hand 1");
    assert_eq!((opened.turn, opened.mark, opened.pots.back()), (1, 10, 2));
    assert_eq!(play.answer("call 1").turn, 0);
}

#[test]
fn a_newcomer_has_no_total_and_the_one_who_left_is_paid_nothing() {
    let mut play = opened();
    play.take(&["wager 3 50", "dead 3", "leave 3", "sit 3 70", "fold 1"]);
    let settled = play.answer("settle").settlement.expect("one live");
    assert_eq!(settled.rows, [(1, 0), (2, 25), (3, 0)]);
    assert_eq!((settled.unclaimed, play.table.stack(3)), (40, 70));
}

#[test]
fn dead_in_and_out_of_turn() {
    let mut play = opened();
    assert_eq!(play.answer("dead 1").turn, 3);
    assert_eq!(play.answer("dead 3").turn, 0);
    assert_eq!(play.code("dead 2"), 4);
    let settled = play.answer("settle").settlement.expect("one live");
    assert_eq!(settled.rows, [(1, 0), (2, 15), (3, 0)]);
    assert_eq!(["hand 1", "hand 3", "hand 2"].map(|entry| play.code(entry)), [5, 5, 0]);
}

#[test]
fn the_limit_of_chips_counts_those_in_the_hand() {
    let mut play = opened();
    play.table.chairs[1].as_mut().expect("a sitter").stack = 99_999_000;
    // 99,999,000 + 5 + 200 - 10 + 10 lie on the table.
    assert_eq!([play.code("sit 4 796"), play.code("sit 4 795")], [9, 0]);
}

#[test]
fn two_live_need_cards() {
    let mut play = Play::new(SHEET);
    play.take(&["sit 1 10", "sit 2 10", "hand 1", "call 1"]);
    play.take(&["board 0 0", "board 0 4", "board 0 8", "board 0 13", "board 0 51", "hole 1 1 2"]);
    assert_eq!(play.code("settle"), 10);
    assert_eq!([play.code("board 0 50"), play.code("hole 2 51 9"), play.code("hole 2 5 9")], [4, 8, 0]);
    // 2-3-4-5-A on the board plays for both.
    let settled = play.answer("settle").settlement.expect("both have cards");
    assert_eq!(settled.rows, [(1, 10), (2, 10)]);
}

/// Seats 3 and 4 have raised to 30 and called; seats 5 and 1 then put in
/// whole stacks that lift the mark by 17 and by 8, with the lift at 20.
fn after_two_short_lifts() -> Play {
    let mut play = Play::new([5, 5, 10, 0, 0, 1]);
    play.take(&["sit 1 55", "sit 2 200", "sit 3 200", "sit 4 200", "sit 5 47", "hand 1"]);
    play.take(&["wager 3 30", "call 4", "wager 5 47", "wager 1 55"]);
    play
}

#[test]
fn short_lifts_do_not_reopen_for_the_last_raiser_or_a_caller() {
    let mut play = after_two_short_lifts();
    play.take(&["fold 2"]);
    let refused = ["wager 3 75", "wager 3 200", "check 3", "call 3"];
    assert_eq!(refused.map(|entry| play.code(entry)), [7, 7, 7, 0]);
    assert_eq!(["wager 4 75", "wager 4 200", "call 4"].map(|entry| play.code(entry)), [7, 7, 0]);
    assert_eq!(play.table.turn(), 0);
}

#[test]
fn one_who_has_not_acted_may_raise_after_short_lifts_and_reopens() {
    let mut play = after_two_short_lifts();
    assert_eq!(["wager 2 74", "wager 2 75"].map(|entry| play.code(entry)), [7, 0]);
    assert_eq!(["wager 3 94", "wager 3 95"].map(|entry| play.code(entry)), [7, 0]);
    play.take(&["wager 4 200"]);
}

#[test]
fn a_short_lift_after_checks_bars_those_who_checked() {
    let mut play = Play::new(SHEET);
    play.take(&["sit 1 100", "sit 2 100", "sit 3 17", "sit 4 100", "hand 1"]);
    play.take(&["call 3", "call 4", "call 1", "check 2", "board 0 1", "board 0 2", "board 0 3"]);
    play.take(&["check 1", "check 2", "wager 3 7"]);
    assert_eq!(["wager 4 16", "call 4"].map(|entry| play.code(entry)), [7, 0]);
    assert_eq!(["wager 1 17", "wager 1 90", "fold 1"].map(|entry| play.code(entry)), [7, 7, 0]);
    assert_eq!(["wager 2 17", "call 2"].map(|entry| play.code(entry)), [7, 0]);
    assert_eq!(play.answer("board 0 4").turn, 2);
    play.take(&["wager 2 10"]);
}

/// Two seats of 10 chips all in before the flop, and no card entered.
fn omaha() -> Play {
    let mut play = Play::of(&sheet_of([2, 5, 10, 0, 0, 1], 4, 52));
    play.take(&["sit 1 10", "sit 2 10", "hand 1", "call 1"]);
    play
}

#[test]
fn four_hole_cards_come_by_two_pairs() {
    let mut play = omaha();
    play.take(&["hole 1 0 1"]);
    // Its own first pair counts as a repeat; the third pair is 5 whatever its cards.
    assert_eq!(["hole 1 0 9", "hole 1 9 1", "hole 1 9 9"].map(|entry| play.code(entry)), [8, 8, 8]);
    play.take(&["hole 2 2 3", "board 0 20", "hole 1 4 5"]);
    assert_eq!(["hole 1 6 7", "hole 1 0 20", "hole 2 4 9"].map(|entry| play.code(entry)), [5, 5, 8]);
    play.take(&["board 0 24", "board 0 28", "board 0 33", "board 0 38"]);
    assert_eq!([play.code("settle"), play.code("hole 2 10 11"), play.code("settle")], [10, 0, 0]);
}

#[test]
fn exactly_two_of_the_hole_and_three_of_the_board() {
    let mut play = omaha();
    // Four spades on the board and one in seat 1's hole make no flush; seat 2 has a pair of aces.
    play.take(&["hole 1 51 0", "hole 1 5 10", "hole 2 48 49", "hole 2 14 17"]);
    play.take(&["board 0 3", "board 0 23", "board 0 31", "board 0 39", "board 0 26"]);
    let settled = play.answer("settle").settlement.expect("all cards entered");
    assert_eq!(settled.rows, [(1, 0), (2, 20)]);
}

/// Two seats of 10 chips all in before the flop, cards seven to ace.
fn short_deck() -> Play {
    let mut play = Play::of(&sheet_of([2, 5, 10, 0, 0, 1], 2, 32));
    play.take(&["sit 1 10", "sit 2 10", "hand 1", "call 1"]);
    play
}

#[test]
fn a_card_below_seven_is_2_before_any_other_code() {
    let mut play = short_deck();
    let codes = ["hole 1 19 20", "hole 1 20 19", "hole 1 0 0", "board 0 19"].map(|entry| play.code(entry));
    assert_eq!(codes, [2, 2, 2, 2]);
    // 3 comes after 2, and a good card lets it through.
    let wrong_n = |entry| block(99, entry).into_bytes();
    let codes = ["board 0 19", "board 0 20"].map(|entry| answer_block(&mut play.table, &wrong_n(entry)).code);
    assert_eq!(codes, [2, 3]);
    play.take(&["hole 1 20 51", "hole 2 21 22", "board 0 23"]);
}

#[test]
fn a_flush_beats_a_full_house_of_32_cards() {
    // Seat 1: K-10-9-8-7 of one suit. Seat 2: kings full of tens.
    let cards = [
        "hole 1 20 24",
        "hole 2 45 46",
        "board 0 28",
        "board 0 32",
        "board 0 44",
        "board 0 33",
        "board 0 39",
    ];
    let mut play = short_deck();
    play.take(&cards);
    assert_eq!(play.answer("settle").settlement.expect("cards entered").rows, [(1, 20), (2, 0)]);
    let mut play = Play::new([2, 5, 10, 0, 0, 1]);
    play.take(&["sit 1 10", "sit 2 10", "hand 1", "call 1"]).take(&cards);
    assert_eq!(play.answer("settle").settlement.expect("cards entered").rows, [(1, 0), (2, 20)]);
}
