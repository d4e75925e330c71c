//! Document 01's whole example: runs a store and applies its patch to another window.
//!
//!     cargo run --release --example whole

use starshackle::{assembly, decode, element, elements, store};
use starshackle::{Element, Flags, Machine, Patch, Stored, Window, LARGEST_STORE_PATCH};
use std::error::Error;

/// Vectors of 16 bytes: four elements of 32 bits.
const VB: usize = 16;
/// A scatter of bytes.
const WORD: u32 = 0xE442_8001;
/// The window: where it starts, and how many bytes it has.
const BASE: u64 = 0x1000;
const LENGTH: usize = 8;

fn main() -> Result<(), Box<dyn Error>> {
    let (z, p) = (vectors(), [0xFF; 2 * VB]);
    let mut x = [0; 31];
    x[0] = BASE;
    let machine = Machine { vb: VB, flags: Flags::SVE, x, z: &z, p: &p, ..Machine::default() };

    let text = assembly::text(&decode(WORD)?).unwrap_or_default();
    println!("{WORD:08X}: {text} (the text isn't proved)");
    for number in 0..elements(&machine, WORD)? {
        let Element { active, address, .. } =
            element(&machine, WORD, number)?.expect("its number is below the count");
        println!("element {number}: active {active}, {address:X}h");
    }

    let (mut memory, mut buffer) = ([0; LENGTH], [0; LARGEST_STORE_PATCH]);
    let window = Window { base: BASE, memory: &mut memory };
    let done = store(&machine, window, WORD, &mut buffer)?;
    let Stored { elements, bytes, length, steps } = done;
    println!("done: {elements} elements, {bytes} bytes, {steps} steps: {memory:02X?}");

    let patch = Patch::read(&buffer[..length])?;
    println!("patch of {length} bytes");
    for run in patch.runs() {
        println!("  {:02X?} at {:X}h", run.bytes, run.address);
    }

    let mut patched = [0; LENGTH];
    patch.apply(Window { base: BASE, memory: &mut patched })?;
    assert_eq!(patched, memory, "applying the patch leaves what the store leaves");
    println!("applied: {patched:02X?}");
    Ok(())
}

/// The vector registers: z1 has the bytes, z2 the offsets.
fn vectors() -> [u8; 32 * VB] {
    let vector = |elements: [u32; 4]| elements.map(u32::to_le_bytes).concat();
    let mut z = [0; 32 * VB];
    z[VB..2 * VB].copy_from_slice(&vector([0xA1, 0xA2, 0xA3, 0xA4]));
    z[2 * VB..3 * VB].copy_from_slice(&vector([0, 1, 1, 5]));
    z
}
