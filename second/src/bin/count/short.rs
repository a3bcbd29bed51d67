//! The deck of 32 (request No. 6): the cards it has not, and the hands that it
//! ranks otherwise.

use crate::Counts;
use second::entries::{Entry, Written};
use second::hands::{Strength, FLUSH, FULL_HOUSE};
use second::table::Table;
use second::text::Sheet;

/// Counts a block that gets 2 for a card below the seven and for nothing else.
pub fn count_refused(sheet: &Sheet, written: &Written<'_>, counts: &mut Counts) {
    let full = Sheet { deck: 52, ..*sheet };
    if written.entry(sheet).is_none() && written.entry(&full).is_some() {
        counts.add(format!("short: {} with a card below seven", written.word));
    }
}

/// Counts what the hands of a taken `settle` show.
pub fn count(before: &Table, entry: &Entry, code: u8, counts: &mut Counts) {
    if before.sheet.deck != 32 || *entry != Entry::Settle || code != 0 || before.live_count() < 2 {
        return;
    }
    counts.add("short: showdown");
    let shown = live_hands(before);
    let has = |class: usize| shown.iter().any(|hand| hand.class == class);
    if has(FLUSH) && has(FULL_HOUSE) {
        counts.add("short: flush against full house");
    }
    if shown.iter().any(|hand| hand.ranks == LOWEST_STRAIGHT) {
        counts.add("short: lowest straight");
    }
}

const LOWEST_STRAIGHT: [u8; 5] = [10, 9, 8, 7, 6];

fn live_hands(table: &Table) -> Vec<Strength> {
    let Some(hand) = &table.hand else { return Vec::new() };
    let strengths = hand.strengths(&table.sheet);
    table.seats().filter(|seat| table.is_live(*seat)).filter_map(|seat| strengths[seat]).collect()
}
