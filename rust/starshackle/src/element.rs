//! The elements of a store.

use crate::{element_numbers, Answer, Machine, Refusal};

/// An element of a store. One that isn't active has an address and bytes too.
#[derive(Clone, Copy, Debug, PartialEq, Eq, Hash)]
pub struct Element {
    /// Whether running the store writes it.
    pub active: bool,
    /// Where its first byte goes.
    pub address: u64,
    /// The index of its first byte in the Z buffer.
    pub index: u64,
    /// How many bytes it writes.
    pub bytes: u64,
}

/// The element with this number of the store that a word names, none past the last. Memory plays no
/// part, and of the flags only streaming does, with the edition, in [`Refusal::Length`]. A strided
/// store's elements are numbered through all its registers. Refused with [`Refusal::Length`],
/// [`Refusal::Registers`] or, when the word has no class, [`Refusal::Undefined`]. A strided word gets
/// the first at each length that isn't 16, 32, 64, 128 or 256, also under the early edition.
///
/// ```
/// use starshackle::{element, Element, Machine};
///
/// // st1d { z0.d, z8.d }, pn8, [x0], with nothing active
/// let (z, p) = ([0; 32 * 16], [0; 2 * 16]);
/// let machine = Machine { vb: 16, z: &z, p: &p, ..Machine::default() };
/// let last = Element { active: false, address: 24, index: 8 * 16 + 8, bytes: 8 };
/// assert_eq!(element(&machine, 0xA160_6000, 3), Ok(Some(last)));
/// assert_eq!(element(&machine, 0xA160_6000, 4), Ok(None));
/// ```
pub fn element(machine: &Machine, word: u32, number: u64) -> Result<Option<Element>, Refusal> {
    let [active, address, index, bytes, elements] = element_answer(machine, word, number)?;
    let element = Element { active: active != 0, address, index, bytes };
    Ok((number < elements).then_some(element))
}

/// How many elements the store that a word names has, active or not. Refused as [`element`] is.
///
/// ```
/// use starshackle::{elements, Machine, Refusal};
///
/// let (z, p) = ([0; 32 * 16], [0; 2 * 16]);
/// let machine = Machine { vb: 16, z: &z, p: &p, ..Machine::default() };
/// assert_eq!(elements(&machine, 0xA160_6000), Ok(4));
/// assert_eq!(elements(&machine, 0), Err(Refusal::Undefined));
/// ```
pub fn elements(machine: &Machine, word: u32) -> Result<u64, Refusal> {
    element_answer(machine, word, 0).map(|[.., elements]| elements)
}

fn element_answer(machine: &Machine, word: u32, number: u64) -> Result<Answer, Refusal> {
    let mut answer = [0; 5];
    match element_numbers(machine, word, number, &mut answer) {
        0 => Ok(answer),
        verdict => Err(Refusal::answered(verdict, [0, 0])),
    }
}

#[cfg(test)]
mod tests {
    use super::*;
    use crate::example::{machine, z, SCATTER};

    #[test]
    fn elements_of_a_store() {
        let z = z([0; 4], [0, 1, 9, 8]);
        let good = machine(&z);
        let third = Element { active: true, address: 0x1009, index: 16 + 8, bytes: 1 };
        assert_eq!(elements(&good, SCATTER), Ok(4));
        assert_eq!(element(&good, SCATTER, 2), Ok(Some(third)));
        assert_eq!(element(&good, SCATTER, 4), Ok(None));
        assert_eq!(element(&good, 0, 0), Err(Refusal::Undefined));
        assert_eq!(elements(&Machine { vb: 0, ..good }, SCATTER), Err(Refusal::Length));
    }
}
