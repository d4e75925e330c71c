//! A store's net effect from the scope paper's words: the set of its byte writes in an ordered map,
//! encoded.

use super::arm::Element;
use super::joints::{joints, Joint};
use crate::patches::reader::{encoding, runs, Writes, SIZES};
use crate::reference::Outcome;
use crate::verdicts::{DONE, NO_ROOM};

/// What a store that no refusal before 8 is due for does.
pub struct Effect {
    /// How many elements are active.
    pub active: usize,
    /// How many bytes they move.
    pub moved: usize,
    /// How many runs the patch has.
    pub runs: usize,
    pub patch: Vec<u8>,
    /// How many active elements don't start where the active one before them ends.
    pub steps: usize,
}

impl Effect {
    /// The effect of elements that are in a window where they are active.
    pub fn of(elements: &[Element]) -> Effect {
        let mut writes = Writes::new();
        let (mut active, mut moved) = (0, 0);
        for element in elements.iter().filter(|element| element.active) {
            active += 1;
            for (k, address) in element.addresses().enumerate() {
                let address = u64::try_from(address).expect("the window ends below 2^64");
                writes.insert(address, element.byte(k));
                moved += 1;
            }
        }
        let steps = active - joints(elements).filter(Joint::touches).count();
        let runs = runs(&writes);
        let patch = encoding(&writes, &runs, SIZES).expect("a store's effect is within the sizes");
        Effect { active, moved, runs: runs.len(), patch, steps }
    }

    /// How many addresses are written.
    pub fn payload(&self) -> usize {
        self.patch.len() - 4 - 12 * self.runs
    }

    /// What the store answers in a patch buffer of this length.
    pub fn outcome(&self, room: usize) -> Outcome<6> {
        let length = self.patch.len();
        if room < length {
            return Outcome { verdict: NO_ROOM, numbers: [0; 6] };
        }
        let counts = [self.active, self.moved, length, self.steps].map(|number| number as u64);
        let [active, moved, length, steps] = counts;
        Outcome { verdict: DONE, numbers: [0, 0, active, moved, length, steps] }
    }
}
