//! Request No. 8, the screen maker's numbers: how many lines and bytes an
//! answer has, and how many turn entries are taken after a wager, or from a
//! round's opening, before nobody owes.

use crate::Counts;
use second::answer::Answer;
use second::entries::Entry;
use second::table::Table;
use second::text::LF;

/// The bounds themselves: a run of all profiles must reach them.
pub const DEMANDED: [&str; 3] =
    ["lines 27 in an answer", "turns  9 after a wager", "turns 10 from an opening"];

/// How the names begin of what must never occur.
pub const BROKEN: &str = "too many ";

const MOST_LINES: usize = 27;
const MOST_BYTES: usize = 540;

pub fn count_room(answer: &Answer, counts: &mut Counts) {
    let mut written = Vec::new();
    answer.write(&mut written);
    let lines = written.iter().filter(|byte| **byte == LF).count();
    counts.add(format!("lines {lines:2} in an answer"));
    if lines > MOST_LINES || written.len() > MOST_BYTES {
        counts.add(format!("{BROKEN}lines or bytes: {lines} and {}", written.len()));
    }
}

/// Where the counting of turns began.
#[derive(Clone, Copy)]
enum Start {
    Wager,
    Opening,
}

impl Start {
    fn name(self) -> &'static str {
        match self {
            Start::Wager => "after a wager",
            Start::Opening => "from an opening",
        }
    }

    /// Every seat, but the one that wagered.
    fn most_turns(self, seats: usize) -> usize {
        match self {
            Start::Wager => seats - 1,
            Start::Opening => seats,
        }
    }
}

/// Folds, checks and calls taken since the last wager, or since the round
/// opened where none came; nothing once nobody owes.
#[derive(Default)]
pub struct Turns(Option<(Start, usize)>);

impl Turns {
    /// A taken entry, and the table as it stands then.
    pub fn count(&mut self, entry: &Entry, table: &Table, counts: &mut Counts) {
        match *entry {
            Entry::Wager { .. } => self.0 = Some((Start::Wager, 0)),
            Entry::Hand { .. } => self.0 = Some((Start::Opening, 0)),
            Entry::Board { .. } if table.board_count() >= 3 => self.0 = Some((Start::Opening, 0)),
            Entry::Fold { .. } | Entry::Check { .. } | Entry::Call { .. } => self.add_turn(),
            _ => (),
        }
        if !table.someone_owes() {
            self.end(table.sheet.seats, counts);
        }
    }

    fn add_turn(&mut self) {
        if let Some((_, turns)) = &mut self.0 {
            *turns += 1;
        }
    }

    fn end(&mut self, seats: usize, counts: &mut Counts) {
        let Some((start, turns)) = self.0.take() else { return };
        counts.add(format!("turns {turns:2} {}", start.name()));
        if turns > start.most_turns(seats) {
            counts.add(format!("{BROKEN}turns: {turns} {} with {seats} seats", start.name()));
        }
    }
}
