//! Damaged bytes: what keypads, editors and bad lines do to a block.

use second::random::Random;
use second::text::LF;

type Lines = Vec<Vec<u8>>;

/// One or two injuries. The block may come out with more or fewer lines.
pub fn damaged(block: Vec<u8>, random: &mut Random) -> Vec<u8> {
    let mut lines: Lines = block.split_inclusive(|byte| *byte == LF).map(<[u8]>::to_vec).collect();
    for _ in 0..random.pick(&[1, 1, 1, 2]) {
        if random.chance(30) {
            hurt_order(&mut lines, random);
        } else {
            hurt_line(&mut lines, random);
        }
    }
    let block = lines.concat();
    if random.chance(5) {
        return cut(block, random);
    }
    block
}

/// The first bytes only, at least one less than all.
pub fn cut(block: Vec<u8>, random: &mut Random) -> Vec<u8> {
    let kept = random.between(0, block.len().max(1) as u64 - 1) as usize;
    block[..kept].to_vec()
}

/// A line for a block that damage has left unfinished.
pub fn filler(random: &mut Random) -> Vec<u8> {
    let lines = ["\n", "b=0\n", "a=0\n", "seat=1\n", "do=fold\n", "n=1\n", "=\n", "x\n"];
    random.pick(&lines).as_bytes().to_vec()
}

fn hurt_order(lines: &mut Lines, random: &mut Random) {
    let last = lines.len() as u64 - 1;
    let (one, other) = (random.between(0, last) as usize, random.between(0, last) as usize);
    match random.between(0, 3) {
        0 => lines.insert(one, lines[other].clone()),
        1 => lines.insert(one, vec![LF]),
        2 if last > 0 => drop(lines.remove(one)),
        _ => lines.swap(one, other),
    }
}

/// Hurts one line, its LF aside (mostly).
fn hurt_line(lines: &mut Lines, random: &mut Random) {
    let chosen = random.between(0, lines.len() as u64 - 1) as usize;
    let line = &mut lines[chosen];
    let ended = line.pop_if(|byte| *byte == LF).is_some();
    let equals = line.iter().position(|byte| *byte == b'=').unwrap_or(0);
    let value = (equals + 1).min(line.len());
    let place = random.between(0, line.len() as u64) as usize;
    match random.between(0, 16) {
        0 => line.insert(value, b'0'),
        1 => line.insert(value, random.pick(b"+- \t")),
        2 => drop(line.splice(value.., *b"1234567890")),
        3 => drop(line.splice(value.., *b"000000000")),
        4 => drop(line.splice(value.., *b"folderino")),
        5 => line.truncate(value),
        6 => line.push(b'\r'),
        7 => line.push(random.pick(b" \0=0")),
        8 => line.insert(place, 0),
        9 => line.insert(place, 0xFF),
        10 => line.insert(place, random.between(0, 255) as u8),
        11 => lengthen(line, random),
        12 => line.make_ascii_uppercase(),
        13 => line.retain(|byte| *byte != b'='),
        14 => line.insert(equals, random.pick(b"a =")),
        15 => line.truncate(place),
        _ => flip(line, place, random),
    }
    if ended {
        line.push(LF);
    }
}

/// To about the longest length allowed, or far beyond it.
fn lengthen(line: &mut Vec<u8>, random: &mut Random) {
    let length = random.pick(&[31, 32, 33, 34, 40, 300, 5_000]);
    let filling = random.pick(b"0a =");
    line.resize(length, filling);
}

fn flip(line: &mut [u8], place: usize, random: &mut Random) {
    if let Some(byte) = line.get_mut(place) {
        *byte ^= 1 << random.between(0, 7);
    }
}
