//! A reader of patches, made from the description of a set's encoding: bytes are a patch when the
//! set that they write, encoded again, gives the same bytes.

use crate::reference::Outcome;
use crate::verdicts::{BAD_PATCH, DONE, OUTSIDE, WINDOW};
use crate::LONGEST;
use std::collections::BTreeMap;

pub const RUN_MARK: [u8; 2] = [0x50, 0x52];
pub const TRAILER_MARK: [u8; 2] = [0x50, 0x45];

pub const MOST_RUNS: usize = 512;
pub const MOST_BYTES: usize = 1024;

/// The most runs and payload bytes of a patch.
#[derive(Clone, Copy)]
pub struct Sizes {
    pub runs: usize,
    pub bytes: usize,
}

/// Document 02 (vii): "The patch may now hold 0 to 512 runs, still at most 1,024 payload bytes".
pub const SIZES: Sizes = Sizes { runs: MOST_RUNS, bytes: MOST_BYTES };

/// 2^64, behind the last address.
pub const TOP: u128 = 1 << 64;

/// A set of byte writes.
pub type Writes = BTreeMap<u64, u8>;

/// The runs of a set, each its start and its bytes.
pub type Runs = Vec<(u64, Vec<u8>)>;

/// What has the form of a run, whatever its numbers say.
struct Piece<'a> {
    start: u64,
    bytes: &'a [u8],
    /// Where it ends in the string.
    end: usize,
}

/// What a string is read as.
pub enum Read {
    Patch {
        writes: Writes,
        runs: Runs,
    },
    /// So many runs from the front were whole and acceptable, and there they end.
    NoPatch {
        runs: usize,
        offset: usize,
    },
}

/// A little-endian number.
fn number(bytes: &[u8]) -> u64 {
    bytes.iter().rfold(0, |number, &byte| number << 8 | u64::from(byte))
}

fn piece(string: &[u8], at: usize) -> Option<Piece<'_>> {
    let rest = string[at..].strip_prefix(&RUN_MARK)?;
    let start = number(rest.get(..8)?);
    let length = number(rest.get(8..10)?) as usize;
    let bytes = rest[10..].get(..length)?;
    Some(Piece { start, bytes, end: at + 12 + length })
}

/// The pieces at the front of a string.
fn pieces(string: &[u8]) -> Vec<Piece<'_>> {
    let next = |last: &Piece| piece(string, last.end);
    std::iter::successors(piece(string, 0), next).collect()
}

/// The set that pieces write, a later one over an earlier; none where one passes 2^64.
fn writes<'a>(pieces: &[Piece<'a>]) -> Option<Writes> {
    let end = |piece: &Piece| u128::from(piece.start) + piece.bytes.len() as u128;
    let fit = pieces.iter().all(|piece| end(piece) <= TOP);
    let addressed = |piece: &Piece<'a>| (piece.start..=u64::MAX).zip(piece.bytes);
    let all = pieces.iter().flat_map(addressed);
    fit.then(|| all.map(|(address, &byte)| (address, byte)).collect())
}

/// One starts at each address whose predecessor isn't in the set.
pub fn runs(writes: &Writes) -> Runs {
    let mut runs = Runs::new();
    let mut last = None;
    for (&address, &byte) in writes {
        match runs.last_mut() {
            Some((_, bytes)) if last == address.checked_sub(1) => bytes.push(byte),
            _ => runs.push((address, vec![byte])),
        }
        last = Some(address);
    }
    runs
}

/// The encoding of a set that is within the sizes, without its trailer.
fn body(writes: &Writes, runs: &Runs, sizes: Sizes) -> Option<Vec<u8>> {
    let mut body = Vec::new();
    for (start, bytes) in runs {
        body.extend(RUN_MARK);
        body.extend(start.to_le_bytes());
        body.extend((bytes.len() as u16).to_le_bytes());
        body.extend(bytes);
    }
    (runs.len() <= sizes.runs && writes.len() <= sizes.bytes).then_some(body)
}

/// The encoding of a set that is within the sizes.
pub fn encoding(writes: &Writes, runs: &Runs, sizes: Sizes) -> Option<Vec<u8>> {
    let count = (runs.len() as u16).to_le_bytes();
    body(writes, runs, sizes).map(|body| [&body[..], &TRAILER_MARK, &count].concat())
}

/// Whether the pieces, which are a string's first ones, are the beginning of an encoding.
fn acceptable(string: &[u8], pieces: &[Piece], sizes: Sizes) -> bool {
    let end = pieces.last().map_or(0, |piece| piece.end);
    let body = writes(pieces).and_then(|writes| body(&writes, &runs(&writes), sizes));
    body.as_deref() == Some(&string[..end])
}

pub fn read(string: &[u8]) -> Read {
    read_within(SIZES, string)
}

/// What a string is read as where patches have these sizes.
pub fn read_within(sizes: Sizes, string: &[u8]) -> Read {
    let pieces = pieces(string);
    if let Some(writes) = writes(&pieces) {
        let runs = runs(&writes);
        if encoding(&writes, &runs, sizes).as_deref() == Some(string) {
            return Read::Patch { writes, runs };
        }
    }
    // What is the beginning of an encoding stays so with fewer runs.
    let counts: Vec<usize> = (1..=pieces.len()).collect();
    let runs = counts.partition_point(|&count| acceptable(string, &pieces[..count], sizes));
    let offset = pieces[..runs].last().map_or(0, |piece| piece.end);
    Read::NoPatch { runs, offset }
}

/// What judging answers of a string that was read.
pub fn judged(read: &Read) -> Outcome<5> {
    match read {
        Read::Patch { writes, runs } => done(writes, runs),
        Read::NoPatch { runs, offset } => {
            Outcome { verdict: BAD_PATCH, numbers: [*runs as u64, *offset as u64, 0, 0, 0] }
        }
    }
}

fn done(writes: &Writes, runs: &Runs) -> Outcome<5> {
    let numbers = [0, 0, runs.len() as u64, writes.len() as u64, 0];
    Outcome { verdict: DONE, numbers }
}

/// Applies what was read from a string to the window of the memory from `base` on.
pub fn apply(read: &Read, base: u64, memory: &mut [u8]) -> Outcome<5> {
    let end = u128::from(base) + memory.len() as u128;
    let (writes, runs) = match read {
        _ if memory.len() > LONGEST || end > TOP => return refused(WINDOW, [0, 0]),
        Read::NoPatch { .. } => return refused(BAD_PATCH, [0, 0]),
        Read::Patch { writes, runs } => (writes, runs),
    };
    let inside = |address: u64| address >= base && u128::from(address) < end;
    for (number, (start, bytes)) in runs.iter().enumerate() {
        let last = start + (bytes.len() as u64 - 1);
        if !inside(*start) || !inside(last) {
            return refused(OUTSIDE, [number as u64, *start]);
        }
    }
    for (address, &byte) in writes {
        memory[(address - base) as usize] = byte;
    }
    done(writes, runs)
}

fn refused(verdict: u64, [run, address]: [u64; 2]) -> Outcome<5> {
    Outcome { verdict, numbers: [run, address, 0, 0, 0] }
}

#[cfg(test)]
mod tests {
    use super::*;

    /// The whole example of the scope document.
    const EXAMPLE: [u8; 31] = [
        0x50, 0x52, 0x00, 0x10, 0, 0, 0, 0, 0, 0, 2, 0, 0xA1, 0xA3, //
        0x50, 0x52, 0x05, 0x10, 0, 0, 0, 0, 0, 0, 1, 0, 0xA4, //
        0x50, 0x45, 2, 0,
    ];

    fn numbers(string: &[u8]) -> (u64, [u64; 5]) {
        let Outcome { verdict, numbers } = judged(&read(string));
        (verdict, numbers)
    }

    #[test]
    fn the_example() {
        assert_eq!(numbers(&EXAMPLE), (0, [0, 0, 2, 3, 0]));
        let mut memory = [0; 6];
        assert_eq!(apply(&read(&EXAMPLE), 0x1000, &mut memory).verdict, DONE);
        assert_eq!(memory, [0xA1, 0xA3, 0, 0, 0, 0xA4]);
    }

    #[test]
    fn no_patches() {
        assert_eq!(numbers(&[]), (9, [0, 0, 0, 0, 0]));
        assert_eq!(numbers(&EXAMPLE[..27]), (9, [2, 27, 0, 0, 0]));
        assert_eq!(numbers(&[&EXAMPLE[..], &[0]].concat()), (9, [2, 27, 0, 0, 0]));
        let mut touching = EXAMPLE;
        touching[14 + 2] = 2;
        assert_eq!(numbers(&touching), (9, [1, 14, 0, 0, 0]));
        let twice = [&EXAMPLE[..14], &EXAMPLE].concat();
        assert_eq!(numbers(&twice), (9, [1, 14, 0, 0, 0]));
    }

    #[test]
    fn the_top_of_the_addresses() {
        let run = |start: u64, length: u8| {
            let bytes = vec![7; length.into()];
            [&RUN_MARK[..], &start.to_le_bytes(), &[length, 0], &bytes, b"\x50\x45\x01\0"].concat()
        };
        assert_eq!(numbers(&run(u64::MAX, 1)), (0, [0, 0, 1, 1, 0]));
        assert_eq!(numbers(&run(u64::MAX, 2)), (9, [0; 5]));
        assert_eq!(numbers(&run(0, 0)), (9, [0; 5]));
    }
}
