//! A store that is compared, and what the independent model says of it.

use super::arm::{self, Element, Elements};
use super::effect::Effect;
use super::input::Input;
use crate::reference::Outcome;

/// Bytes on either side of memory and patch buffer, which no call may write.
pub const MARGIN: usize = 64;

/// A store and what is right: its effect, or a refusal that stands before 8.
pub struct Subject {
    pub number: u64,
    pub input: Input,
    /// What is said of its elements one by one, whatever the flags and the window.
    pub inspected: Elements,
    pub right: Result<Effect, Outcome<6>>,
}

/// What a window holds before a store, and after it where it is done; with margins.
#[derive(Default)]
pub struct Filling {
    pub before: Vec<u8>,
    pub after: Vec<u8>,
}

impl Subject {
    pub fn new(number: u64, input: Input) -> Subject {
        let elements = arm::elements(&input);
        Subject::with_elements(number, input, elements)
    }

    /// The subject with these elements.
    pub fn with_elements(number: u64, input: Input, elements: Elements) -> Subject {
        let right = arm::judged(&input, &elements).map(Effect::of);
        Subject { number, input, inspected: elements, right }
    }

    /// Its elements; none where it has no registers or no class.
    pub fn elements(&self) -> &[Element] {
        self.inspected.as_deref().unwrap_or(&[])
    }

    pub fn active(&self) -> impl Iterator<Item = &Element> {
        self.elements().iter().filter(|element| element.active)
    }

    /// What is right to answer in a patch buffer of this length.
    pub fn outcome(&self, room: usize) -> Outcome<6> {
        match &self.right {
            Ok(effect) => effect.outcome(room),
            Err(refusal) => *refusal,
        }
    }

    pub fn text(&self) -> String {
        format!("store {}: {}", self.number, self.input.text())
    }
}

impl Filling {
    /// Becomes the subject's memory, changed byte by byte.
    pub fn fill(&mut self, subject: &Subject, content: impl Fn(u8) -> u8) {
        let Input { base, ref memory, .. } = subject.input;
        self.before.clear();
        self.before.resize(memory.len() + 2 * MARGIN, 0x5A);
        for (byte, own) in self.before[MARGIN..].iter_mut().zip(memory) {
            *byte = content(*own);
        }
        self.after.clear();
        if subject.right.is_ok() {
            self.after.extend_from_slice(&self.before);
            arm::write(base, subject.elements(), &mut self.after[MARGIN..][..memory.len()]);
        }
    }
}
