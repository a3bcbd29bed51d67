//! `second < log > answers`. With `--levels` pots are counted by the closed
//! form at every size, which is faster; the answers are the same.

use second::clerk::Clerk;
use second::pots::{by_levels, literally};
use std::io::{self, Read, Write};

fn main() {
    let by_form = std::env::args().any(|argument| argument == "--levels");
    let clerk = Clerk::new(if by_form { by_levels } else { literally });
    // A reader or writer that has gone away ends the program quietly.
    let _ = run(clerk, io::stdin().lock(), io::stdout().lock());
}

/// Writes the answers of all blocks that are whole before it waits for more.
fn run(mut clerk: Clerk, mut input: impl Read, mut output: impl Write) -> io::Result<()> {
    let mut bytes = vec![0; 1 << 16];
    let mut answers = Vec::new();
    while !clerk.has_ended() {
        let count = input.read(&mut bytes)?;
        if count == 0 {
            clerk.close(&mut answers);
        } else {
            clerk.feed(&bytes[..count], &mut answers);
        }
        output.write_all(&answers)?;
        output.flush()?;
        answers.clear();
        if count == 0 {
            break;
        }
    }
    Ok(())
}
