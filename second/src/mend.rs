//! Request No. 1: a log with broken blocks, copied fair. The sheet and every
//! block that is an entry in range come out in the paper's form; of each
//! other block one line says its number in the log and its code. A sheet from
//! before the later requests, which ends where a block begins or with the
//! input, gets the lines that it lacks, and a line for each says so.

use crate::answer::line;
use crate::entries::{read_block, Written};
use crate::text::{sheet, Sheet, ENTRY_KEYS, LF, SHEET_KEYS};

/// Blocks are counted no further: a number has nine digits at most.
const MOST: u64 = 999_999_999;

/// The lines of the first paper's sheet, and what a missing later one means.
const FIRST_LINES: usize = 5;
const MEANT: [&str; SHEET_KEYS.len() - FIRST_LINES] = ["step=1\n", "game=2\n", "deck=52\n", "drop=0\n"];

/// A line that begins so can't be a sheet's: a block begins there.
const BLOCK_BEGINS: &[u8] = b"n=";

enum Stage {
    Sheet,
    Blocks(Sheet),
    Ended,
}

/// Gathers lines until a sheet or a block is whole, and copies it then.
pub struct Mender {
    stage: Stage,
    gathered: Vec<u8>,
    lines: usize,
    blocks: u64,
}

impl Default for Mender {
    fn default() -> Mender {
        Mender { stage: Stage::Sheet, gathered: Vec::new(), lines: 0, blocks: 0 }
    }
}

impl Mender {
    /// The sheet was bad; nothing more will be copied.
    pub fn has_ended(&self) -> bool {
        matches!(self.stage, Stage::Ended)
    }

    pub fn feed(&mut self, bytes: &[u8], copy: &mut Vec<u8>, said: &mut Vec<u8>) {
        for piece in bytes.split_inclusive(|byte| *byte == LF) {
            self.gathered.extend_from_slice(piece);
            self.end_old_sheet(copy, said);
            self.lines += usize::from(piece.ends_with(&[LF]));
            if self.lines == self.lines_wanted() {
                self.copy_gathered(copy, said);
            }
        }
    }

    /// The input is at its end: what was begun is malformed.
    pub fn close(&mut self, copy: &mut Vec<u8>, said: &mut Vec<u8>) {
        if self.gathered.ends_with(&[LF]) {
            self.add_lines(said);
        }
        if !self.gathered.is_empty() || matches!(self.stage, Stage::Sheet) {
            self.copy_gathered(copy, said);
        }
    }

    /// Where a block begins behind five lines or more of a sheet that is not
    /// whole, the sheet is an old one and ends there.
    fn end_old_sheet(&mut self, copy: &mut Vec<u8>, said: &mut Vec<u8>) {
        // The start of the line that the last byte belongs to, an LF too.
        let but_last = &self.gathered[..self.gathered.len() - 1];
        let begins = but_last.iter().rposition(|byte| *byte == LF).map_or(0, |place| place + 1);
        let is_old = matches!(self.stage, Stage::Sheet) && self.lines >= FIRST_LINES;
        if !is_old || !self.gathered[begins..].starts_with(BLOCK_BEGINS) {
            return;
        }
        let block = self.gathered.split_off(begins);
        self.add_lines(said);
        self.copy_gathered(copy, said);
        self.gathered = block;
    }

    /// Puts the lines that an old sheet lacks behind it, if it is good so.
    fn add_lines(&mut self, said: &mut Vec<u8>) {
        let missing = self.lines.checked_sub(FIRST_LINES).and_then(|more| MEANT.get(more..));
        let (Stage::Sheet, Some(missing)) = (&self.stage, missing) else { return };
        let added = missing.concat().into_bytes();
        if sheet(&[&self.gathered[..], &added].concat()).is_some() {
            self.gathered.extend(added);
            said.extend(missing.iter().flat_map(|line| format!("added {line}").into_bytes()));
        }
    }

    fn lines_wanted(&self) -> usize {
        match self.stage {
            Stage::Sheet => SHEET_KEYS.len(),
            _ => ENTRY_KEYS.len(),
        }
    }

    fn copy_gathered(&mut self, copy: &mut Vec<u8>, said: &mut Vec<u8>) {
        match self.stage {
            Stage::Sheet => self.copy_sheet(copy, said),
            Stage::Blocks(sheet) => {
                self.blocks = MOST.min(self.blocks + 1);
                if let Err(code) = copy_block(&self.gathered, sheet, copy) {
                    said.extend(format!("block={} code={code}\n", self.blocks).bytes());
                }
            }
            Stage::Ended => (),
        }
        self.gathered.clear();
        self.lines = 0;
    }

    fn copy_sheet(&mut self, copy: &mut Vec<u8>, said: &mut Vec<u8>) {
        self.stage = match sheet(&self.gathered) {
            Some(sheet) => {
                write_sheet(sheet, copy);
                Stage::Blocks(sheet)
            }
            None => {
                line(said, "code", 11);
                Stage::Ended
            }
        };
    }
}

fn write_sheet(sheet: Sheet, copy: &mut Vec<u8>) {
    let Sheet { seats, small, big, rate, cap, step, game, deck, drop } = sheet;
    let values = [seats as u64, small, big, rate, cap, step, game as u64, deck as u64, drop];
    for (key, value) in SHEET_KEYS.into_iter().zip(values) {
        line(copy, key, value);
    }
}

/// The block's entry in good form, or the code that the paper gives it.
fn copy_block(block: &[u8], sheet: Sheet, copy: &mut Vec<u8>) -> Result<(), u8> {
    let written = read_block(block).ok_or(1)?;
    written.entry(&sheet).ok_or(2)?;
    write_block(written, copy);
    Ok(())
}

fn write_block(written: Written<'_>, copy: &mut Vec<u8>) {
    let [n, kind, seat, a, b] = ENTRY_KEYS;
    line(copy, n, written.n);
    copy.extend(format!("{kind}={}\n", written.word).bytes());
    line(copy, seat, written.seat);
    line(copy, a, written.a);
    line(copy, b, written.b);
}
