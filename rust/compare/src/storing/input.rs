//! What a store is given.

use super::arm::EARLY;
use crate::reference::Reference;
use crate::report::name;
use starshackle::{Edition, Flags, Machine};
use std::fmt::Write;

/// A machine, a window and a word.
#[derive(Clone)]
pub struct Input {
    pub vb: usize,
    /// As the library takes them, the edition among them.
    pub flags: u64,
    pub x: [u64; 31],
    pub sp: u64,
    pub z: Vec<u8>,
    pub p: Vec<u8>,
    /// The window's address.
    pub base: u64,
    /// What the window holds beforehand.
    pub memory: Vec<u8>,
    pub word: u32,
}

/// Bytes on a line of text.
const LINE: usize = 64;
/// Memory up to this length is printed.
const SHORT: usize = 4096;

impl Input {
    /// The machine as the library takes it.
    pub fn machine(&self) -> Machine<'_> {
        let Input { vb, flags, x, sp, ref z, ref p, .. } = *self;
        let edition = if flags >> EARLY & 1 == 1 { Edition::Early } else { Edition::Late };
        Machine { vb, flags: Flags(flags), edition, x, sp, z, p }
    }

    /// The address behind the window's last byte.
    pub fn end(&self) -> u128 {
        u128::from(self.base) + self.memory.len() as u128
    }

    /// Everything in hexadecimal, memory only where it is short.
    pub fn text(&self) -> String {
        let Input { vb, flags, sp, base, .. } = self;
        let (z, p, memory) = (self.z.len(), self.p.len(), self.memory.len());
        let mut text = name(&Reference::new(), self.word);
        put(&mut text, "numbers", &format!("vb {vb:X}, flags {flags:X}, sp {sp:X}"));
        put(&mut text, "lengths", &format!("z {z:X}, p {p:X}, memory {memory:X}"));
        put(&mut text, "window", &format!("{base:X}"));
        for (number, row) in self.x.chunks(4).enumerate() {
            put(&mut text, &format!("x{}", number * 4), &format!("{row:016X?}"));
        }
        let line = self.vb.clamp(1, LINE);
        put_bytes(&mut text, "z", &self.z, line);
        put_bytes(&mut text, "p", &self.p, line);
        if memory <= SHORT {
            put_bytes(&mut text, "memory", &self.memory, LINE);
        }
        text
    }
}

fn put(text: &mut String, name: &str, value: &str) {
    write!(text, "\n  {name:10} {value}").expect("a string takes all");
}

/// Bytes in lines, each with the index of its first.
fn put_bytes(text: &mut String, name: &str, bytes: &[u8], line: usize) {
    for (number, row) in bytes.chunks(line).enumerate() {
        let digits: String = row.iter().map(|byte| format!("{byte:02X}")).collect();
        put(text, &format!("{name}+{:X}", number * line), &digits);
    }
}

#[cfg(test)]
mod tests {
    use super::*;

    #[test]
    fn texts() {
        let (z, p) = (vec![0xAB; 3], vec![]);
        let input =
            Input { vb: 2, flags: 9, x: [0; 31], sp: 1, z, p, base: 16, memory: vec![], word: 0 };
        let text = input.text();
        assert!(text.starts_with("00000000 (of no class)\n  numbers    vb 2, flags 9, sp 1\n"));
        assert!(text.ends_with("]\n  z+0        ABAB\n  z+2        AB"), "{text}");
    }
}
