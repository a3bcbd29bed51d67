//! The whole program as bytes in, bytes out, however the input is cut.

use crate::answer::{answer_block, line};
use crate::pots::PotRule;
use crate::table::Table;
use crate::text::{sheet, ENTRY_KEYS, LF, SHEET_KEYS};

enum Stage {
    Sheet,
    Open(Table),
    Ended,
}

/// Gathers lines until a sheet or a block is whole and answers it then.
pub struct Clerk {
    stage: Stage,
    gathered: Vec<u8>,
    lines: usize,
    pot_rule: PotRule,
}

impl Clerk {
    pub fn new(pot_rule: PotRule) -> Clerk {
        Clerk { stage: Stage::Sheet, gathered: Vec::new(), lines: 0, pot_rule }
    }

    /// A bad sheet was answered; nothing more will be.
    pub fn has_ended(&self) -> bool {
        matches!(self.stage, Stage::Ended)
    }

    /// The table, once its sheet was read.
    pub fn table(&self) -> Option<&Table> {
        match &self.stage {
            Stage::Open(table) => Some(table),
            _ => None,
        }
    }

    /// Lines of the unfinished block; bytes behind the last LF aside.
    pub fn lines_gathered(&self) -> usize {
        self.lines
    }

    pub fn feed(&mut self, bytes: &[u8], out: &mut Vec<u8>) {
        for piece in bytes.split_inclusive(|byte| *byte == LF) {
            self.gathered.extend_from_slice(piece);
            self.lines += usize::from(piece.ends_with(&[LF]));
            if self.lines == self.lines_wanted() {
                self.answer_gathered(out);
            }
        }
    }

    /// The input is at its end: what was begun is malformed, and a sheet that
    /// never became whole is missing a line.
    pub fn close(&mut self, out: &mut Vec<u8>) {
        if !self.gathered.is_empty() || matches!(self.stage, Stage::Sheet) {
            self.answer_gathered(out);
        }
    }

    fn lines_wanted(&self) -> usize {
        match self.stage {
            Stage::Sheet => SHEET_KEYS.len(),
            _ => ENTRY_KEYS.len(),
        }
    }

    fn answer_gathered(&mut self, out: &mut Vec<u8>) {
        match &mut self.stage {
            Stage::Sheet => self.open_table(out),
            Stage::Open(table) => answer_block(table, &self.gathered).write(out),
            Stage::Ended => (),
        }
        self.gathered.clear();
        self.lines = 0;
    }

    fn open_table(&mut self, out: &mut Vec<u8>) {
        self.stage = match sheet(&self.gathered) {
            Some(sheet) => Stage::Open(Table::new(sheet, self.pot_rule)),
            None => {
                line(out, "code", 11);
                Stage::Ended
            }
        };
    }
}

/// The whole output for a whole log.
pub fn answers_to(log: &[u8], pot_rule: PotRule) -> Vec<u8> {
    let mut clerk = Clerk::new(pot_rule);
    let mut out = Vec::new();
    clerk.feed(log, &mut out);
    clerk.close(&mut out);
    out
}
