//! `gen SEED ENTRIES [--profile P] [--seats S]`: writes a log of at least that many entries.
//! It plays on its own table, so that it knows what is legal and what is not.

mod damage;
mod faults;
mod play;
mod profile;

use play::Player;
use profile::{Profile, PROFILES};
use second::clerk::Clerk;
use second::entries::Entry;
use second::pots::by_levels;
use second::random::Random;
use std::io::{self, BufWriter, Write};

fn main() -> io::Result<()> {
    let arguments: Vec<String> = std::env::args().skip(1).collect();
    let words: Vec<&str> = arguments.iter().map(String::as_str).collect();
    let (seed, entries, options) = match words.as_slice() {
        [seed, entries, options @ ..] => (seed.parse(), entries.parse(), Options::of(options)),
        _ => return usage(),
    };
    let (Ok(seed), Ok(entries), Some(options)) = (seed, entries, options) else { return usage() };
    write_log(Random::new(seed), entries, options, BufWriter::new(io::stdout().lock()))
}

/// What kind of log is asked for.
#[derive(Clone, Copy)]
struct Options {
    profile: &'static Profile,
    /// As many seats as the profile chooses, where none are asked for.
    seats: Option<u64>,
}

impl Options {
    fn of(words: &[&str]) -> Option<Options> {
        let mut options = Options { profile: &PROFILES[0], seats: None };
        for pair in words.chunks(2) {
            match *pair {
                ["--profile", name] => options.profile = PROFILES.iter().find(|known| known.name == name)?,
                ["--seats", seats] => {
                    options.seats = Some(seats.parse().ok().filter(|seats| (2..=10).contains(seats))?)
                }
                _ => return None,
            }
        }
        Some(options)
    }
}

fn usage() -> io::Result<()> {
    let names: Vec<&str> = PROFILES.iter().map(|profile| profile.name).collect();
    eprintln!("gen SEED ENTRIES [--profile P] [--seats S], S 2 to 10, P one of: {}", names.join(" "));
    std::process::exit(2)
}

/// The lines of one block before they are written.
#[derive(Clone)]
pub struct Fields {
    pub n: u64,
    pub word: String,
    pub seat: u64,
    pub a: u64,
    pub b: u64,
}

impl Fields {
    pub fn of(n: u64, entry: &Entry) -> Fields {
        let (word, seat, a, b) = match *entry {
            Entry::Sit { seat, chips } => ("sit", seat, chips, 0),
            Entry::Leave { seat } => ("leave", seat, 0, 0),
            Entry::Hand { puck } => ("hand", puck, 0, 0),
            Entry::Hole { seat, cards: [a, b] } => ("hole", seat, a.into(), b.into()),
            Entry::Fold { seat } => ("fold", seat, 0, 0),
            Entry::Check { seat } => ("check", seat, 0, 0),
            Entry::Call { seat } => ("call", seat, 0, 0),
            Entry::Wager { seat, to } => ("wager", seat, to, 0),
            Entry::Board { card } => ("board", 0, card.into(), 0),
            Entry::Dead { seat } => ("dead", seat, 0, 0),
            Entry::Settle => ("settle", 0, 0, 0),
            Entry::Void => ("void", 0, 0, 0),
        };
        Fields { n, word: word.to_string(), seat: seat as u64, a, b }
    }

    fn block(&self) -> Vec<u8> {
        let Fields { n, word, seat, a, b } = self;
        format!("n={n}\ndo={word}\nseat={seat}\na={a}\nb={b}\n").into_bytes()
    }
}

fn write_log(
    mut random: Random,
    entries: u64,
    Options { profile, seats }: Options,
    mut output: impl Write,
) -> io::Result<()> {
    let sheet = profile.sheet(seats, &mut random);
    let mut clerk = Clerk::new(by_levels);
    clerk.feed(&sheet, &mut Vec::new());
    output.write_all(&sheet)?;
    let mut player = Player::new(random, profile);
    let mut begun = 0;
    while begun < entries || clerk.lines_gathered() > 0 {
        begun += u64::from(clerk.lines_gathered() == 0);
        let bytes = next_bytes(&mut player, &clerk);
        clerk.feed(&bytes, &mut Vec::new());
        output.write_all(&bytes)?;
    }
    if player.random.chance(profile.cut_end) {
        output.write_all(&damage::cut(next_bytes(&mut player, &clerk), &mut player.random))?;
    }
    output.flush()
}

/// The next block; or, where damage has left one unfinished, a line for it.
fn next_bytes(player: &mut Player, clerk: &Clerk) -> Vec<u8> {
    let Some(table) = clerk.table() else { return b"n=1\n".to_vec() };
    if clerk.lines_gathered() > 0 {
        return damage::filler(&mut player.random);
    }
    let fields = if player.random.chance(player.profile.fault) {
        player.fault(table)
    } else {
        Fields::of(table.taken + 1, &player.next_entry(table))
    };
    let block = fields.block();
    if player.random.chance(player.profile.damage) {
        return damage::damaged(block, &mut player.random);
    }
    block
}
