//! The kinds of strings that are compared.

use super::damage as d;
use super::generate::{self as g, Run};
use crate::random::Random;

/// How a string is made: from runs of a shape, from damaged runs, or by damaging the string. A
/// damage asks for so many runs at least; `Move` and `Write` keep how many runs or bytes there are.
enum Make {
    Shape(fn(&mut Random) -> Vec<Run>),
    Move(usize, fn(&mut Random, &mut [Run])),
    Runs(usize, fn(&mut Random, &mut Vec<Run>)),
    Write(usize, fn(&mut Random, &[Run], &mut [u8])),
    Bytes(usize, fn(&mut Random, &[Run], &mut Vec<u8>)),
}

use Make::{Bytes, Move, Runs, Shape, Write};

/// A kind of strings, and the verdicts that applying such has to hit.
pub struct Kind {
    pub name: &'static str,
    pub verdicts: &'static [u64],
    make: Make,
}

const fn kind(name: &'static str, verdicts: &'static [u64], make: Make) -> Kind {
    Kind { name, verdicts, make }
}

const PATCH: &[u64] = &[0, 3, 10];
const BAD: &[u64] = &[3, 9];
const ELSEWHERE: &[u64] = &[3, 9, 10];
const EITHER: &[u64] = &[0, 3, 9, 10];

pub const KINDS: &[Kind] = &[
    kind("patch: no run", &[0, 3], Shape(g::none)),
    kind("patch: few runs", PATCH, Shape(|random| g::few(random, 1))),
    kind("patch: 65 to 512 runs", PATCH, Shape(g::hundreds)),
    kind("patch: 512 runs", PATCH, Shape(g::most_runs)),
    kind("patch: 1,024 bytes", PATCH, Shape(g::most_bytes)),
    kind("patch: one run of 1,024 bytes", PATCH, Shape(g::one_long)),
    kind("patch: 512 runs, 1,024 bytes", PATCH, Shape(g::largest)),
    kind("patch: gaps of one byte", PATCH, Shape(g::gaps_of_one)),
    kind("patch: from address 0", PATCH, Shape(g::from_zero)),
    kind("patch: up to 2^64", PATCH, Shape(g::up_to_the_top)),
    kind("patch: its bytes are a patch", PATCH, Shape(g::nested)),
    kind("runs exchanged", BAD, Move(2, d::exchange)),
    kind("runs touch", BAD, Move(2, d::touch)),
    kind("runs overlap", BAD, Move(2, d::overlap)),
    kind("empty run", BAD, Runs(0, d::empty)),
    kind("513 runs or more", BAD, Runs(0, d::too_many_runs)),
    kind("1,025 bytes or more", BAD, Runs(0, d::too_many_bytes)),
    kind("run passes 2^64", BAD, Runs(1, d::pass_the_top)),
    kind("byte changed", EITHER, Write(0, d::change_byte)),
    kind("byte of a head changed", EITHER, Write(0, d::change_head)),
    kind("cut", BAD, Bytes(0, d::cut)),
    kind("cut in the trailer", BAD, Bytes(0, d::cut_trailer)),
    kind("extended by bytes", BAD, Bytes(0, d::extend)),
    kind("extended by a patch", BAD, Bytes(0, d::second_patch)),
    kind("extended by a trailer", BAD, Bytes(0, d::second_trailer)),
    kind("trailer before a run", BAD, Bytes(1, d::early_trailer)),
    kind("big-endian length", BAD, Write(1, d::big_endian_length)),
    kind("big-endian start", ELSEWHERE, Write(1, d::big_endian_start)),
    kind("other length", BAD, Write(1, d::other_length)),
    kind("other number in the trailer", BAD, Write(0, d::other_count)),
    kind("other mark", BAD, Write(0, d::other_mark)),
    kind("noise", BAD, Bytes(0, d::noise)),
];

/// A string, and the runs that it was made from.
pub struct Case {
    pub runs: Vec<Run>,
    pub string: Vec<u8>,
}

pub fn case(random: &mut Random, number: usize) -> Case {
    let make = &KINDS[number].make;
    let mut runs = match *make {
        Shape(shape) => shape(random),
        Move(least, _) | Runs(least, _) | Write(least, _) | Bytes(least, _) => {
            g::some(random, least)
        }
    };
    match make {
        Move(_, damage) => damage(random, &mut runs),
        Runs(_, damage) => damage(random, &mut runs),
        _ => {}
    }
    let mut string = g::string(&runs);
    match make {
        Write(_, damage) => damage(random, &runs, &mut string),
        Bytes(_, damage) => damage(random, &runs, &mut string),
        _ => {}
    }
    Case { runs, string }
}

#[cfg(test)]
mod tests {
    use super::super::reader::{judged, read};
    use super::*;

    #[test]
    fn shapes_are_patches_and_most_damages_are_not() {
        let mut random = Random::new(1);
        for (number, kind) in KINDS.iter().enumerate() {
            for _ in 0..300 {
                let case = case(&mut random, number);
                let patch = judged(&read(&case.string)).verdict == 0;
                match kind.make {
                    Shape(_) => assert!(patch, "{}: {:?}", kind.name, case.runs),
                    Write(..) => {}
                    _ => assert!(!patch, "{}: {:?}", kind.name, case.runs),
                }
            }
        }
    }
}
