//! What a call answers.

use crate::verdicts::{BAD_PATCH, DONE, FAULT, ILLEGAL, LENGTH, NO_ROOM, OUTSIDE, REGISTERS};
use crate::verdicts::{OVERLAP, STACK, UNDEFINED, WINDOW};
use starshackle::Answer;

/// Why a call isn't done.
#[derive(Clone, Copy, Debug, PartialEq, Eq)]
pub enum Refusal {
    Length,
    Registers,
    Window,
    Undefined,
    Illegal,
    Stack,
    Fault { element: usize, address: u64 },
    Overlap { element: usize, address: u64 },
    NoRoom,
    BadPatch,
    Outside { run: usize, address: u64 },
}

impl Refusal {
    fn number(self) -> u64 {
        match self {
            Refusal::Length => LENGTH,
            Refusal::Registers => REGISTERS,
            Refusal::Window => WINDOW,
            Refusal::Undefined => UNDEFINED,
            Refusal::Illegal => ILLEGAL,
            Refusal::Stack => STACK,
            Refusal::Fault { .. } => FAULT,
            Refusal::Overlap { .. } => OVERLAP,
            Refusal::NoRoom => NO_ROOM,
            Refusal::BadPatch => BAD_PATCH,
            Refusal::Outside { .. } => OUTSIDE,
        }
    }

    fn detail(self) -> Answer {
        match self {
            Refusal::Fault { element: number, address }
            | Refusal::Overlap { element: number, address }
            | Refusal::Outside { run: number, address } => [number as u64, address, 0, 0, 0],
            _ => [0; 5],
        }
    }
}

/// What a call that is done counted: elements or runs, bytes, the length of a patch, and steps.
#[derive(Clone, Copy, Debug, Default, PartialEq, Eq)]
pub struct Done {
    pub parts: usize,
    pub bytes: usize,
    pub length: usize,
    pub steps: usize,
}

/// Writes the answer, but for steps, and tells the verdict's number.
pub fn answered(result: Result<Done, Refusal>, answer: &mut Answer) -> u64 {
    match result {
        Ok(Done { parts, bytes, length, .. }) => {
            *answer = [0, 0, parts as u64, bytes as u64, length as u64];
            DONE
        }
        Err(refusal) => {
            *answer = refusal.detail();
            refusal.number()
        }
    }
}
