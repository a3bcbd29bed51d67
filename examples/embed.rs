//! embed: examples/embed.c once more, in Rust: a log from standard input, in chops of any size, and its answers to standard output as it arrives, the same bytes
//! as bin/clerk. An argument is the most bytes that one read asks for (65536); with 0 all of the log is read first and answered at one go.
use std::io::{Error, ErrorKind, Read, Write};

const ANSWER_BYTES: usize = 540;
const STATE_BYTES: usize = 668;

extern "C" {
    // include/clerk.h says what they do. A slice is a pointer and a length.
    fn clerk_run(log: *const u8, log_len: usize, out: *mut u8, out_len: usize) -> usize;
    fn clerk_start(state: *mut u8, state_len: usize) -> u32;
    fn clerk_feed(state: *mut u8, state_len: usize, part: *const u8, part_len: usize, out: *mut u8, out_len: usize, counts: *mut usize, counts_len: usize) -> u32;
    fn clerk_close(state: *const u8, state_len: usize, out: *mut u8, out_len: usize, counts: *mut usize, counts_len: usize) -> u32;
}

/// A call's code: 0, or what was refused.
fn accepted(code: u32) -> Result<(), Error> {
    if code == 0 { Ok(()) } else { Err(Error::from(ErrorKind::InvalidInput)) }
}

/// The box as a log arrives: the one array that a maker keeps. Nobody else can write there, which is what the calls rest on.
struct Box {
    state: [u8; STATE_BYTES],
}

impl Box {
    fn start() -> Result<Box, Error> {
        let mut state = [0; STATE_BYTES];
        // SAFETY, here and below: slices that do not overlap; a slice's pointer is never null, and the box keeps none.
        accepted(unsafe { clerk_start(state.as_mut_ptr(), state.len()) })?;
        Ok(Box { state })
    }

    /// A part of the log, call after call, until it is used up.
    fn feed(&mut self, mut part: &[u8], answers: &mut impl Write) -> Result<(), Error> {
        let (mut out, mut counts) = ([0; 4096], [0; 2]);
        while !part.is_empty() {
            let code = unsafe {
                clerk_feed(self.state.as_mut_ptr(), self.state.len(), part.as_ptr(), part.len(), out.as_mut_ptr(), out.len(), counts.as_mut_ptr(), counts.len())
            };
            accepted(code)?;
            let [written, used] = counts;
            answers.write_all(&out[..written])?;
            part = &part[used..];
        }
        Ok(())
    }

    fn close(&self, answers: &mut impl Write) -> Result<(), Error> {
        let (mut out, mut counts) = ([0; ANSWER_BYTES], [0; 1]);
        let code = unsafe { clerk_close(self.state.as_ptr(), self.state.len(), out.as_mut_ptr(), out.len(), counts.as_mut_ptr(), counts.len()) };
        accepted(code)?;
        answers.write_all(&out[..counts[0]])
    }
}

fn as_it_arrives(chop: usize) -> Result<(), Error> {
    let (mut part, mut answers) = (vec![0; chop], std::io::stdout().lock());
    let mut log = Box::start()?;
    loop {
        match std::io::stdin().read(&mut part)? {
            0 => return log.close(&mut answers),
            got => log.feed(&part[..got], &mut answers)?,
        }
    }
}

/// Room for all answers to a log: a block has five lines, the last may be cut, and a bad sheet gets one line.
fn room(log: &[u8]) -> usize {
    let lfs = log.iter().filter(|&&b| b == b'\n').count();
    (lfs / 5 + 1) * ANSWER_BYTES
}

fn at_one_go() -> Result<(), Error> {
    let mut log = Vec::new();
    std::io::stdin().read_to_end(&mut log)?;
    let mut out = vec![0; room(&log)];
    let written = unsafe { clerk_run(log.as_ptr(), log.len(), out.as_mut_ptr(), out.len()) };
    std::io::stdout().write_all(&out[..written])
}

fn main() -> Result<(), Error> {
    let chop = match std::env::args().nth(1) {
        Some(word) => word.parse().map_err(|_| Error::from(ErrorKind::InvalidInput))?,
        None => 65536,
    };
    if chop == 0 { at_one_go() } else { as_it_arrives(chop) }
}
