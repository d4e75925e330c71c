//! Reading a patch, and applying it.

use super::refusal::{answered, Done, Refusal};
use super::window::Window;
use crate::verdicts::{HEAD, MOST_BYTES, MOST_RUNS, RUN_MARK, TRAILER_MARK};
use starshackle::Answer;

/// Bytes from an address on.
pub struct Run<'a> {
    pub start: u64,
    pub bytes: &'a [u8],
}

/// The runs at the front of a string, whatever their numbers say; then what is left.
#[derive(Clone, Copy)]
pub struct Runs<'a> {
    pub rest: &'a [u8],
}

impl<'a> Iterator for Runs<'a> {
    type Item = Run<'a>;

    fn next(&mut self) -> Option<Run<'a>> {
        let head = self.rest.get(..HEAD).filter(|head| head.starts_with(&RUN_MARK))?;
        let start = u64::from_le_bytes(head[2..10].try_into().expect("eight bytes"));
        let length = usize::from(u16::from_le_bytes([head[10], head[11]]));
        let bytes = self.rest.get(HEAD..HEAD + length)?;
        self.rest = &self.rest[HEAD + length..];
        Some(Run { start, bytes })
    }
}

/// As the model's, with the same arguments.
#[inline(never)]
pub fn apply(base: u64, memory: &mut [u8], patch: &[u8], answer: &mut Answer) -> u64 {
    answered(try_apply(base, memory, patch), answer)
}

fn try_apply(base: u64, memory: &mut [u8], patch: &[u8]) -> Result<Done, Refusal> {
    let window = Window::new(base, memory.len() as u64)?;
    let done = read(patch).ok_or(Refusal::BadPatch)?;
    let runs = Runs { rest: patch };
    for (run, Run { start: address, bytes }) in runs.enumerate() {
        window.offset(address, bytes.len()).ok_or(Refusal::Outside { run, address })?;
    }
    for Run { start, bytes } in runs {
        let offset = window.offset(start, bytes.len()).expect("the run was checked");
        memory[offset..offset + bytes.len()].copy_from_slice(bytes);
    }
    Ok(done)
}

/// The runs and bytes of a patch; nothing where the string is none.
pub fn read(patch: &[u8]) -> Option<Done> {
    let mut runs = Runs { rest: patch };
    let mut done = Done::default();
    let mut last: Option<u64> = None;
    for Run { start, bytes } in runs.by_ref() {
        let after_gap = last.map_or(true, |last| start > last && start - last > 1);
        if bytes.is_empty() || !after_gap {
            return None;
        }
        last = Some(start.checked_add(bytes.len() as u64 - 1)?);
        done.parts += 1;
        done.bytes += bytes.len();
    }
    let count = runs.rest.strip_prefix(&TRAILER_MARK)?;
    let counted = count == (done.parts as u16).to_le_bytes();
    (counted && done.parts <= MOST_RUNS && done.bytes <= MOST_BYTES).then_some(done)
}
