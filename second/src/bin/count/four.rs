//! Four hole cards (request No. 5): what a second and a third pair meet.

use crate::Counts;
use second::entries::Entry;
use second::table::Table;

/// Counts a `hole` or `settle` of a game with four hole cards.
pub fn count(before: &Table, entry: &Entry, code: u8, counts: &mut Counts) {
    if before.sheet.game != 4 {
        return;
    }
    match (*entry, code) {
        (Entry::Hole { seat, cards }, _) => {
            let held = before.dealt(seat).filter(|dealt| dealt.live).map_or(&[][..], |dealt| &dealt.cards);
            let own = cards.iter().any(|card| held.contains(card));
            match (held.len(), code) {
                (2, 0) => counts.add("four: second pair"),
                (2, 8) if own => counts.add("four: repeat of the own pair"),
                (4, 5) if own => counts.add("four: third hole with a repeat"),
                (4, 5) => counts.add("four: third hole"),
                _ => (),
            }
        }
        (Entry::Settle, 10) if has_one_pair(before) => counts.add("four: settle with one pair"),
        (Entry::Settle, 0) if before.live_count() > 1 => counts.add("four: showdown"),
        _ => (),
    }
}

fn has_one_pair(table: &Table) -> bool {
    table.hand.as_ref().is_some_and(|hand| hand.live().any(|dealt| dealt.cards.len() == 2))
}
