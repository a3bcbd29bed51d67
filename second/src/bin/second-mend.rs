//! `second-mend < log > copy`: the log copied fair, and on standard error a
//! line for each block that is left out.

use second::mend::Mender;
use std::io::{self, Read, Write};

fn main() {
    // A reader or writer that has gone away ends the program quietly.
    let _ = run(Mender::default(), io::stdin().lock(), io::stdout().lock(), io::stderr().lock());
}

fn run(
    mut mender: Mender,
    mut input: impl Read,
    mut output: impl Write,
    mut notes: impl Write,
) -> io::Result<()> {
    let mut bytes = vec![0; 1 << 16];
    let (mut copy, mut said) = (Vec::new(), Vec::new());
    while !mender.has_ended() {
        let count = input.read(&mut bytes)?;
        if count == 0 {
            mender.close(&mut copy, &mut said);
        } else {
            mender.feed(&bytes[..count], &mut copy, &mut said);
        }
        output.write_all(&copy)?;
        output.flush()?;
        notes.write_all(&said)?;
        copy.clear();
        said.clear();
        if count == 0 {
            break;
        }
    }
    Ok(())
}
