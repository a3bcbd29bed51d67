//! Short lifts (request No. 2): whole-stack wagers that lift the mark by less
//! than the lift, whom they go over, and who may raise after them.

use crate::Counts;
use second::entries::Entry;
use second::seats::{clockwise_after, Seat};
use second::table::{Act, Hand, Table};

/// Counts what a wager or call, taken or refused with 7, shows of the rule.
pub fn count(before: &Table, entry: &Entry, code: u8, counts: &mut Counts) {
    let Some(hand) = &before.hand else { return };
    match (*entry, code) {
        (Entry::Wager { seat, to }, 0) => {
            count_raise(before, hand, seat, counts);
            count_short_lift(before, hand, seat, to, counts);
        }
        (Entry::Wager { seat, to }, 7) => count_refused(before, hand, seat, to, counts),
        (Entry::Call { seat }, 0) if hand.may_only_call_or_fold(seat) => {
            counts.add("after a short lift: call by one who may not raise");
        }
        _ => (),
    }
}

fn last_act(hand: &Hand, seat: Seat) -> Option<Act> {
    hand.acts.iter().rev().find(|(who, _)| *who == seat).map(|(_, act)| *act)
}

fn last_wager_was_short(hand: &Hand) -> bool {
    hand.acts
        .iter()
        .rev()
        .find(|(_, act)| act.is_full_lift() || act.is_short_lift())
        .is_some_and(|(_, act)| act.is_short_lift())
}

/// In the first round of a hand, and until it acts.
fn has_option(before: &Table, hand: &Hand, seat: Seat) -> bool {
    let mut after_puck = clockwise_after(hand.puck, before.sheet.seats);
    let big_blind = after_puck.find(|next| before.dealt(*next).is_some());
    hand.board.is_empty() && big_blind == Some(seat) && last_act(hand, seat).is_none()
}

fn count_short_lift(before: &Table, hand: &Hand, raiser: Seat, to: u64, counts: &mut Counts) {
    if to >= hand.mark + hand.lift {
        return;
    }
    counts.add("short lift");
    if last_wager_was_short(hand) {
        counts.add("two short lifts in a row");
    }
    for seat in before.seats() {
        if seat == raiser || !before.is_live(seat) || before.stack(seat) == 0 {
            continue;
        }
        counts.add(match last_act(hand, seat) {
            None if has_option(before, hand, seat) => "short lift over the big blind's option",
            None => "short lift over one who has not acted",
            Some(Act::Check) => "short lift over one who checked",
            Some(Act::Call) => "short lift over one who called",
            Some(Act::Wager { .. }) => "short lift over one who raised",
        });
    }
}

fn count_raise(before: &Table, hand: &Hand, seat: Seat, counts: &mut Counts) {
    if !last_wager_was_short(hand) {
        return;
    }
    counts.add(match last_act(hand, seat) {
        None if has_option(before, hand, seat) => {
            "after a short lift: raise by the big blind, its option kept"
        }
        None => "after a short lift: raise by one who has not acted",
        Some(_) => "after a short lift: raise by one who acted before the last full lift only",
    });
}

/// A wager whose amount 01 allows, in turn, refused for request No. 2 alone.
fn count_refused(before: &Table, hand: &Hand, seat: Seat, to: u64, counts: &mut Counts) {
    let Some(dealt) = before.dealt(seat) else { return };
    if !before.amount_is_allowed(hand, dealt, seat, to) {
        return;
    }
    let since = hand.acts_since_full_lift();
    let raised = since.first().is_some_and(|(who, act)| *who == seat && act.is_full_lift());
    counts.add(match last_act(hand, seat) {
        Some(Act::Check) => "after a short lift: refused to one who checked",
        Some(Act::Call) if !raised => "after a short lift: refused to one who called",
        _ => "after a short lift: refused to the last raiser",
    });
    if to == dealt.round_total + before.stack(seat) {
        counts.add("after a short lift: refused a whole stack");
    }
    if hand.mark - mark_at_full_lift(hand) >= hand.lift {
        counts.add("after a short lift: refused where short lifts add up to a full one");
    }
}

/// The mark less what the short lifts since the last full one added.
fn mark_at_full_lift(hand: &Hand) -> u64 {
    let rise = |(_, act): &(Seat, Act)| match *act {
        Act::Wager { rise, full: false } => rise,
        _ => 0,
    };
    hand.mark - hand.acts_since_full_lift().iter().map(rise).sum::<u64>()
}
