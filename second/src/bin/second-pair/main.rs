//! second-pair [--table K]: what `pair` has to write on the same standard input, by the witness.
//! second-pair --gen SEED BLOCKS: a random input of two tables, made beside the witness's own tables.
//! second-pair --count [--demand] FILE..: what occurred in these inputs; with --demand it fails where something that they must contain was missed.

mod count;
mod maker;

use second::pair::run;
use second::pots::literally;
use std::io::{Read, Write};

fn main() {
    let words: Vec<String> = std::env::args().skip(1).collect();
    let words: Vec<&str> = words.iter().map(String::as_str).collect();
    let only = match words.as_slice() {
        [] => None,
        ["--table", "1"] => Some(1),
        ["--table", "2"] => Some(2),
        ["--gen", seed, blocks] => {
            let number = |text: &str| text.parse().expect("a number");
            let input = maker::input(number(seed), number(blocks));
            return std::io::stdout().write_all(&input).expect("standard output can be written");
        }
        ["--count", "--demand", files @ ..] => return count::count(files, true),
        ["--count", files @ ..] => return count::count(files, false),
        _ => {
            eprintln!("second-pair [--table 1|2], --gen SEED BLOCKS, or --count [--demand] FILE..");
            std::process::exit(2)
        }
    };
    let mut input = Vec::new();
    std::io::stdin().read_to_end(&mut input).expect("standard input can be read");
    // A reader that has gone away ends the program quietly.
    let _ = std::io::stdout().write_all(&run(&input, only, literally));
}
