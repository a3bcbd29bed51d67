//! Small logs written as `do seat a b`, unused numbers left out at the end.

use second::answer::{answer_block, Answer};
use second::pots::literally;
use second::table::Table;
use second::text::sheet;

pub fn sheet_text(numbers: [u64; 6]) -> String {
    sheet_of(numbers, 2, 52)
}

pub fn sheet_of([seats, small, big, rate, cap, step]: [u64; 6], game: u64, deck: u64) -> String {
    let first = format!("seats={seats}\nsmall={small}\nbig={big}\nrate={rate}\ncap={cap}\nstep={step}\n");
    first + &format!("game={game}\ndeck={deck}\ndrop=0\n")
}

pub fn block(n: u64, entry: &str) -> String {
    let mut words = entry.split(' ').chain(std::iter::repeat("0"));
    let mut next = || words.next().unwrap_or("0");
    format!("n={n}\ndo={}\nseat={}\na={}\nb={}\n", next(), next(), next(), next())
}

pub struct Play {
    pub table: Table,
}

impl Play {
    pub fn new(numbers: [u64; 6]) -> Play {
        Play::of(&sheet_text(numbers))
    }

    pub fn of(sheet_text: &str) -> Play {
        let sheet = sheet(sheet_text.as_bytes()).expect("a good sheet");
        Play { table: Table::new(sheet, literally) }
    }

    pub fn answer(&mut self, entry: &str) -> Answer {
        let n = self.table.taken + 1;
        answer_block(&mut self.table, block(n, entry).as_bytes())
    }

    pub fn code(&mut self, entry: &str) -> u8 {
        self.answer(entry).code
    }

    /// Enters what has to be taken.
    pub fn take(&mut self, entries: &[&str]) -> &mut Play {
        for entry in entries {
            assert_eq!(self.code(entry), 0, "{entry}");
        }
        self
    }
}
