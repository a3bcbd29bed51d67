//! "The table sheet and the entries": lines, numbers, words and the sheet.

pub const LF: u8 = b'\n';
pub const SHEET_KEYS: [&str; 9] = ["seats", "small", "big", "rate", "cap", "step", "game", "deck", "drop"];
pub const ENTRY_KEYS: [&str; 5] = ["n", "do", "seat", "a", "b"];
const LONGEST_LINE: usize = 32;
const MOST_DIGITS: usize = 9;
const LONGEST_WORD: usize = 8;

/// The values of exactly these `key=value` lines, each ended by one LF;
/// nothing if a line is missing, too long, under another key, or one too many.
pub fn values<'a, const N: usize>(text: &'a [u8], keys: [&str; N]) -> Option<[&'a [u8]; N]> {
    let mut found = [&text[..0]; N];
    let mut rest = text;
    for (value, key) in found.iter_mut().zip(keys) {
        let end = rest.iter().position(|byte| *byte == LF)?;
        *value = value_of(&rest[..end], key)?;
        rest = &rest[end + 1..];
    }
    rest.is_empty().then_some(found)
}

fn value_of<'a>(line: &'a [u8], key: &str) -> Option<&'a [u8]> {
    if line.len() > LONGEST_LINE {
        return None;
    }
    line.strip_prefix(key.as_bytes())?.strip_prefix(b"=")
}

/// 1 to 9 decimal digits with no leading zero, save `0`.
pub fn number(text: &[u8]) -> Option<u64> {
    let good_length = (1..=MOST_DIGITS).contains(&text.len());
    let leading_zero = text.len() > 1 && text[0] == b'0';
    if !good_length || leading_zero || !text.iter().all(u8::is_ascii_digit) {
        return None;
    }
    Some(text.iter().fold(0, |value, digit| 10 * value + u64::from(digit - b'0')))
}

/// The form of `do`: 1 to 8 small letters.
pub fn word(text: &[u8]) -> Option<&str> {
    let good_length = (1..=LONGEST_WORD).contains(&text.len());
    if !good_length || !text.iter().all(u8::is_ascii_lowercase) {
        return None;
    }
    std::str::from_utf8(text).ok()
}

#[derive(Clone, Copy, Debug, PartialEq)]
pub struct Sheet {
    pub seats: usize,
    pub small: u64,
    pub big: u64,
    pub rate: u64,
    pub cap: u64,
    pub step: u64,
    /// How many hole cards each dealt-in seat has: 2, or 4 (request No. 5).
    pub game: usize,
    /// How many cards the deck has: 52, or 32, seven to ace (request No. 6).
    pub deck: usize,
    /// What a hand pays into a shared pool (request No. 7); at a lone table nothing.
    pub drop: u64,
}

/// The sheet, or nothing where the paper gives 11.
pub fn sheet(text: &[u8]) -> Option<Sheet> {
    let [seats, small, big, rate, cap, step, game, deck, drop] = values(text, SHEET_KEYS)?.map(number);
    let (seats, small, big, rate, cap) = (seats?, small?, big?, rate?, cap?);
    let (step, game, deck, drop) = (step?, game?, deck?, drop?);
    let in_range = (2..=10).contains(&seats)
        && 1 <= small
        && small <= big
        && big <= 10_000
        && rate <= 100
        && cap <= 1_000_000
        && (1..=1_000).contains(&step)
        && [2, 4].contains(&game)
        && [52, 32].contains(&deck)
        && (deck, game) != (32, 4)
        && drop <= 1_000;
    let (seats, game, deck) = (seats as usize, game as usize, deck as usize);
    in_range.then_some(Sheet { seats, small, big, rate, cap, step, game, deck, drop })
}
