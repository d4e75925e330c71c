//! Why a store was refused: the case at hand, where the verdict is a rule of several cases.
//!
//! It is read from the decoded word, the flags, SP, the elements and the window. It explains the
//! verdict and is no part of it.

use crate::known::Known;
use crate::length::Length;
use crate::notes::Notes;
use crate::numbers;
use crate::store::{flag_name, Described};
use crate::swapped::Swapped;
use starshackle::{element, Flags, Machine, Refusal, LARGEST_WINDOW};

/// The notes about a refusal; none about other outcomes, and about a refusal that says its case.
pub fn of<T>(described: &Described, outcome: &Result<T, Refusal>) -> Notes {
    let refusal = match outcome {
        Ok(_) => return Notes::default(),
        Err(refusal) => *refusal,
    };
    let machine = described.registers.machine();
    Notes(match (refusal, described.word) {
        (Refusal::Length, _) => {
            let rule = Length::of(&machine, described.registers.gives_vb(), outcome);
            rule.iter().map(Length::text).collect()
        }
        (Refusal::Window, _) => window(described.base, described.length),
        (Refusal::Fields, _) => described.wrong_fields.clone(),
        (Refusal::Undefined, Ok(word)) => vec![undefined(word)],
        (Refusal::Illegal, Ok(word)) => Known::decode(word).iter().map(illegal).collect(),
        (Refusal::Stack, Ok(word)) => vec![stack(&machine, word)],
        _ => vec![],
    })
}

/// What is wrong with a window.
pub fn window(base: u64, length: u64) -> Vec<String> {
    let mut notes = Vec::new();
    if length > LARGEST_WINDOW as u64 {
        notes.push(format!("the window has {length} bytes; it may have {LARGEST_WINDOW} at most"));
    }
    let (end, top) = (u128::from(base) + u128::from(length), 1u128 << 64);
    if end > top {
        let bytes = end - top;
        let past = if bytes == 1 { "1 byte".to_string() } else { format!("{bytes} bytes") };
        let address = numbers::address(base);
        notes.push(format!(
            "the window at {address}, length {length}, goes {past} past the top of the address space"
        ));
    }
    notes
}

fn undefined(word: u32) -> String {
    match Known::decode(word) {
        Ok(known) => {
            format!("{} needs the flag {}, which is off", number(&known), flag_name(known.needs()))
        }
        Err(_) => {
            let swapped = Swapped::of(word).map(|swapped| format!("; {}", swapped.text()));
            let word = numbers::hexadecimal(word);
            format!("{word} has no class{}", swapped.unwrap_or_default())
        }
    }
}

fn illegal(known: &Known) -> String {
    let number = number(known);
    if known.needs() == Flags::SME2 {
        return format!("{number} needs the flag streaming, which is off");
    }
    format!("{number} needs streaming off or fa64 on; streaming is on and fa64 is off")
}

fn stack(machine: &Machine, word: u32) -> String {
    let mut elements = (0..).map_while(|number| element(machine, word, number).ok().flatten());
    let also = if elements.any(|element| element.active) {
        "an element is active"
    } else {
        "so is sp-check-none-active"
    };
    let sp = numbers::address(machine.sp);
    format!("the base is SP, {sp}, which is no multiple of 16; sp-check is on, and {also}")
}

/// The class by its number alone.
fn number(known: &Known) -> String {
    format!("class {}", known.class())
}

#[cfg(test)]
mod tests {
    use super::*;
    use starshackle::{apply, Window};

    /// There is a note exactly where the model refuses the window.
    #[test]
    fn windows() {
        for length in [0, 1, 16, 65_535, 65_536, 65_537] {
            for base in [0, 1, !0, !1, !14, !15, !16, !65_535, !65_536, !65_537, 1 << 63] {
                let mut memory = vec![0; length];
                let applied = apply(Window { base, memory: &mut memory }, b"PE\0\0");
                let notes = window(base, length as u64);
                assert_eq!(notes.is_empty(), applied.is_ok(), "{base:#x} {length} {notes:?}");
                assert_eq!(notes.is_empty(), applied != Err(Refusal::Window));
            }
        }
    }
}
