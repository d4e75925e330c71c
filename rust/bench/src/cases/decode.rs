//! Decoding words.

use super::{times_hand, Case, Outcome, Subject};
use crate::sides::Side;
use crate::timing::{repeated, Repeated};
use crate::verdicts::DONE;
use compare::random::Random;
use compare::storing::classes::CLASSES;
use compare::storing::generate::other_word;

const AIM: f64 = 2.0;
const WORDS: usize = 256;

pub fn cases() -> Vec<Case> {
    let mut random = Random::new(1);
    let mixed = (0..WORDS).map(|_| word(&mut random)).collect();
    let name = format!("{WORDS} words: each class, and undefined");
    vec![Case { name, aim: times_hand(AIM), subject: Box::new(Words(mixed)) }]
}

/// A word of any class; one in four isn't, or hardly.
fn word(random: &mut Random) -> u32 {
    let class = &CLASSES[random.below(CLASSES.len())];
    let word = class.base | random.number() as u32 & class.free();
    match random.one_in(4) {
        true => other_word(random, class, word),
        false => word,
    }
}

struct Words(Vec<u32>);

impl Subject for Words {
    fn outcome(&self, side: &Side) -> Outcome {
        let mut numbers = Vec::new();
        for word in &self.0 {
            let mut fields = [1; 8];
            numbers.push((side.decode)(*word, &mut fields));
            numbers.extend(fields);
        }
        (DONE, numbers, Vec::new())
    }

    fn repeated<'a>(&'a self, side: &'a Side) -> Repeated<'a> {
        let mut fields = [0; 8];
        repeated(move || {
            for word in &self.0 {
                (side.decode)(*word, &mut fields);
            }
            true
        })
    }

    fn units(&self) -> usize {
        WORDS
    }
}
