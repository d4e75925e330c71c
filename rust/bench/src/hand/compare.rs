//! Comparing two patches: a pass over each that judges it, and one over both. A list with room for as
//! many differences as there are bytes is filled at once; for a shorter one they are counted before.

use super::apply::{judged, numbers};
use crate::verdicts::{BAD_PATCH, DONE, HEAD, NO_ROOM};
use starshackle::{Answer, ENTRY_NUMBERS, NOT_WRITTEN};

/// As the model's, with the same arguments.
#[inline(never)]
pub fn compare(first: &[u8], second: &[u8], list: &mut [u64], answer: &mut Answer) -> u64 {
    *answer = [0; 5];
    let most = match (judged(first), judged(second)) {
        (Some(one), Some(two)) => one.bytes + two.bytes,
        (one, _) => {
            answer[0] = one.is_some().into();
            return BAD_PATCH;
        }
    };
    let room = list.len() / ENTRY_NUMBERS;
    if room < most {
        let count = merged(first, second, Count(0)).0;
        if room < count {
            answer[2] = count as u64;
            return NO_ROOM;
        }
    }
    answer[2] = (merged(first, second, Put { list, at: 0 }).at / ENTRY_NUMBERS) as u64;
    DONE
}

/// What takes the bytes of two patches by ascending address.
trait Sink {
    fn first(&mut self, address: u64, bytes: &[u8]);
    fn second(&mut self, address: u64, bytes: &[u8]);
    /// As many of the one as of the other.
    fn both(&mut self, address: u64, one: &[u8], two: &[u8]);
}

/// How many differ.
struct Count(usize);

impl Sink for Count {
    #[inline(always)]
    fn first(&mut self, _: u64, bytes: &[u8]) {
        self.0 += bytes.len();
    }

    #[inline(always)]
    fn second(&mut self, _: u64, bytes: &[u8]) {
        self.0 += bytes.len();
    }

    #[inline(always)]
    fn both(&mut self, _: u64, one: &[u8], two: &[u8]) {
        // So many at most that a byte holds their number.
        for (one, two) in one.chunks(128).zip(two.chunks(128)) {
            let unequal = one.iter().zip(two).map(|(one, two)| u8::from(one != two));
            self.0 += usize::from(unequal.sum::<u8>());
        }
    }
}

/// A list with room for all that differ, and where the next goes.
struct Put<'a> {
    list: &'a mut [u64],
    at: usize,
}

impl Put<'_> {
    #[inline(always)]
    fn put(&mut self, address: u64, first: u64, second: u64) {
        self.list[self.at..][..ENTRY_NUMBERS].copy_from_slice(&[address, first, second]);
        self.at += ENTRY_NUMBERS;
    }

    #[inline(always)]
    fn unequal(&mut self, address: u64, one: &[u8], two: &[u8]) {
        for (index, (&one, &two)) in one.iter().zip(two).enumerate() {
            if one != two {
                self.put(address + index as u64, one.into(), two.into());
            }
        }
    }
}

/// Bytes that are compared at once.
const BLOCK: usize = 16;

impl Sink for Put<'_> {
    #[inline(always)]
    fn first(&mut self, address: u64, bytes: &[u8]) {
        for (index, &byte) in bytes.iter().enumerate() {
            self.put(address + index as u64, byte.into(), NOT_WRITTEN);
        }
    }

    #[inline(always)]
    fn second(&mut self, address: u64, bytes: &[u8]) {
        for (index, &byte) in bytes.iter().enumerate() {
            self.put(address + index as u64, NOT_WRITTEN, byte.into());
        }
    }

    #[inline(always)]
    fn both(&mut self, mut address: u64, one: &[u8], two: &[u8]) {
        if one.len() < BLOCK {
            return self.unequal(address, one, two);
        }
        let (ones, twos) = (one.chunks_exact(BLOCK), two.chunks_exact(BLOCK));
        let rest = (ones.remainder(), twos.remainder());
        for (one, two) in ones.zip(twos) {
            if one != two {
                self.unequal(address, one, two);
            }
            // Behind the last block this may wrap, and is the address of nothing.
            address = address.wrapping_add(BLOCK as u64);
        }
        self.unequal(address, rest.0, rest.1);
    }
}

/// What is left of a run, and of the patch behind it. No byte is left where there is no further run.
struct Front<'a> {
    start: u64,
    bytes: &'a [u8],
    rest: &'a [u8],
}

impl<'a> Front<'a> {
    /// The first run of a patch, or of what is left of one.
    #[inline(always)]
    fn of(patch: &'a [u8]) -> Front<'a> {
        // A trailer is shorter than a head.
        if patch.len() < HEAD {
            return Front { start: 0, bytes: &[], rest: patch };
        }
        let (start, length) = numbers(&patch[..HEAD]);
        let (bytes, rest) = patch[HEAD..].split_at(length);
        Front { start, bytes, rest }
    }

    /// What is left behind so many bytes.
    #[inline(always)]
    fn behind(self, count: usize) -> Front<'a> {
        if count == self.bytes.len() {
            return Front::of(self.rest);
        }
        Front { start: self.start + count as u64, bytes: &self.bytes[count..], ..self }
    }
}

/// Hands all bytes of two patches to the sink.
#[inline(always)]
fn merged<S: Sink>(first: &[u8], second: &[u8], mut sink: S) -> S {
    let (mut one, mut two) = (Front::of(first), Front::of(second));
    while !one.bytes.is_empty() && !two.bytes.is_empty() {
        if one.start == two.start {
            let count = one.bytes.len().min(two.bytes.len());
            sink.both(one.start, &one.bytes[..count], &two.bytes[..count]);
            (one, two) = (one.behind(count), two.behind(count));
        } else if one.start < two.start {
            let count = before(&one, two.start);
            sink.first(one.start, &one.bytes[..count]);
            one = one.behind(count);
        } else {
            let count = before(&two, one.start);
            sink.second(two.start, &two.bytes[..count]);
            two = two.behind(count);
        }
    }
    while !one.bytes.is_empty() {
        sink.first(one.start, one.bytes);
        one = Front::of(one.rest);
    }
    while !two.bytes.is_empty() {
        sink.second(two.start, two.bytes);
        two = Front::of(two.rest);
    }
    sink
}

/// How many bytes stand before an address that is higher than the first's.
#[inline(always)]
fn before(front: &Front, address: u64) -> usize {
    (front.bytes.len() as u64).min(address - front.start) as usize
}
