//! Stores whose elements lie as is wanted.

use compare::storing::arm::{SME2, STREAMING, SVE, SVE2P1};
use compare::storing::classes::{Form, BASE, CLASSES, INDEX, XS};
use compare::storing::input::Input;

/// Bytes of the window.
pub const WINDOW: usize = 4096;
/// Where it lies.
const START: u64 = 0x4_0000;

/// Which elements are active.
#[derive(Clone, Copy, PartialEq, Eq)]
pub enum Active {
    All,
    /// Every second element of a scatter, the first half of a strided store.
    Half,
    /// Every second element of a strided store, by a counter of twice the element's size.
    Second,
    None,
}

/// How the elements of a scatter lie.
#[derive(Clone, Copy)]
pub enum Layout {
    /// In the order of their numbers, so many bytes from the start of one to that of the next.
    Ascending(usize),
    /// The same in another order.
    Mixed(usize),
    /// Two by two, which touch, in the order of their numbers.
    Pairs,
}

/// A store of a class, counted from 1.
#[derive(Clone, Copy)]
pub struct Shape {
    pub class: usize,
    pub vb: usize,
    pub active: Active,
    pub layout: Layout,
    /// Whether 32-bit offsets are extended by their sign: some are negative then.
    pub signed: bool,
}

pub const SORTED: Layout = Layout::Ascending(24);
pub const UNSORTED: Layout = Layout::Mixed(24);

impl Shape {
    pub fn new(class: usize, vb: usize) -> Shape {
        Shape { class, vb, active: Active::All, layout: UNSORTED, signed: false }
    }

    /// The store: Zm or Rm 2, Rn or Zn 1, Zt 3, Pg 0 or counter 8.
    pub fn store(&self) -> Input {
        let (class, vb) = (&CLASSES[self.class - 1], self.vb);
        let mut word = class.base | 2 << INDEX.mask().trailing_zeros();
        word |= 1 << BASE.mask().trailing_zeros() | 3;
        let mut flags = 1 << SVE | 1 << SME2 | 1 << SVE2P1;
        if matches!(class.form, Form::Strided { .. }) {
            flags |= 1 << STREAMING;
        }
        if self.signed {
            word |= XS.mask();
        }
        let z = (0..32 * vb).map(|index| (index + index / 256) as u8).collect();
        let (p, memory) = (vec![0; 2 * vb], vec![0; WINDOW]);
        let mut input = Input { vb, flags, x: [0; 31], sp: 0, z, p, base: START, memory, word };
        match class.form {
            Form::Scatter { scale, .. } => self.scatter(&mut input, scale),
            Form::Strided { registers, .. } => self.strided(&mut input, registers),
            Form::Quadword => self.quadword(&mut input),
        }
        input
    }

    /// Each element's offset in the window.
    fn offsets(&self, count: usize) -> impl Iterator<Item = u64> {
        let layout = self.layout;
        let offset = move |e| match layout {
            Layout::Ascending(step) => e * step,
            Layout::Mixed(step) => (e * 37 + 1) % count * step,
            Layout::Pairs => e / 2 * 48 + e % 2 * 8,
        };
        (0..count).map(move |e| offset(e) as u64)
    }

    fn predicate(&self, input: &mut Input, bytes: usize) {
        let is_active = |e: &usize| match self.active {
            Active::All => true,
            Active::Half | Active::Second => e % 2 == 0,
            Active::None => false,
        };
        for e in (0..self.vb / bytes).filter(is_active) {
            input.p[e * bytes / 8] |= 1 << (e * bytes % 8);
        }
    }

    fn scatter(&self, input: &mut Input, scale: u32) {
        let bytes = CLASSES[self.class - 1].esize / 8;
        let below = if self.signed { WINDOW as u64 / 2 } else { 0 };
        input.x[1] = START + below;
        for (e, offset) in self.offsets(self.vb / bytes).enumerate() {
            let offset = (offset.wrapping_sub(below) as i64 >> scale).to_le_bytes();
            input.z[2 * self.vb + e * bytes..][..bytes].copy_from_slice(&offset[..bytes]);
        }
        self.predicate(input, bytes);
    }

    fn quadword(&self, input: &mut Input) {
        input.x[2] = START / 2;
        for (e, offset) in self.offsets(self.vb / 16).enumerate() {
            let base = (START / 2 + offset).to_le_bytes();
            input.z[self.vb + 16 * e..][..8].copy_from_slice(&base);
        }
        self.predicate(input, 16);
    }

    fn strided(&self, input: &mut Input, registers: usize) {
        (input.x[1], input.x[2]) = (START, 8);
        let size = CLASSES[self.class - 1].esize as u16 / 8;
        // A counter's lowest set bit tells its element's bytes, and above it stands the count.
        let counter = match self.active {
            Active::All => 0x8000 | size, // inverted, with a count of none
            Active::Half => (registers * self.vb) as u16 | size,
            Active::Second => 0x8000 | size << 1,
            Active::None => size,
        };
        input.p[self.vb..self.vb + 2].copy_from_slice(&counter.to_le_bytes());
    }
}
