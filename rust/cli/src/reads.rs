//! Which registers a store reads: those that the fields of its word name, whatever is active.

use crate::classes::{Class, Field, FIRST, PC, PG, RM, RN, ZM, ZN, ZT};
use crate::register::Register::{self, Sp, P, X, Z};
use starshackle::Store;
use std::collections::BTreeSet;

/// The registers that a store of a class reads.
pub fn registers(class: &Class, store: &Store) -> BTreeSet<Register> {
    class.fields.iter().flat_map(|field| named(field, class, store)).collect()
}

/// The registers that a field names.
fn named(field: &Field, class: &Class, store: &Store) -> Vec<Register> {
    let entry = |number: u64| number as usize;
    let (index, base) = (entry(store.index), entry(store.base));
    let (predicate, first) = (entry(store.predicate), entry(store.register));
    match *field {
        RM if index == 31 => vec![], // zero
        RM => vec![X(index)],
        RN if base == 31 => vec![Sp],
        RN => vec![X(base)],
        ZM => vec![Z(index)],
        ZN => vec![Z(base)],
        PG => vec![P(predicate)],
        PC => vec![P(8 + predicate)],
        // Two registers are eight apart, four are four apart.
        ZT | FIRST => (0..class.registers).map(|r| Z(first + 16 / class.registers * r)).collect(),
        _ => vec![],
    }
}

#[cfg(test)]
mod tests {
    use super::*;
    use crate::classes::numbered;
    use crate::known::Known;
    use starshackle::{decode, element, store, Element, Stored, LARGEST_STORE_PATCH};
    use starshackle::{Flags, Machine, Refusal, Window};

    const VB: usize = 16;

    /// The base words in the order of their classes, each with the places of its fields.
    const WORDS: &[(u32, u32)] = &[
        (0xE5A0_8000, 0x001F_5FFF),
        (0xE580_8000, 0x001F_5FFF),
        (0xE5A0_A000, 0x001F_1FFF),
        (0xE580_A000, 0x001F_1FFF),
        (0xE400_8000, 0x001F_5FFF),
        (0xE440_8000, 0x001F_5FFF),
        (0xE400_A000, 0x001F_1FFF),
        (0xA120_6000, 0x001F_1FF7),
        (0xA120_E000, 0x001F_1FF3),
        (0xA160_6000, 0x000F_1FF7),
        (0xA160_E000, 0x000F_1FF3),
        (0xE420_2000, 0x001F_1FFF),
        (0xE4A0_8000, 0x001F_5FFF),
        (0xE480_8000, 0x001F_5FFF),
        (0xE4A0_A000, 0x001F_1FFF),
        (0xE480_A000, 0x001F_1FFF),
        (0xE4E0_8000, 0x001F_5FFF),
        (0xE4C0_8000, 0x001F_5FFF),
        (0xE520_8000, 0x001F_5FFF),
        (0xE500_8000, 0x001F_5FFF),
        (0xE520_A000, 0x001F_1FFF),
        (0xE500_A000, 0x001F_1FFF),
        (0xE560_8000, 0x001F_5FFF),
        (0xE540_8000, 0x001F_5FFF),
        (0xA120_0000, 0x001F_1FF7),
        (0xA120_8000, 0x001F_1FF3),
        (0xA160_0000, 0x000F_1FF7),
        (0xA160_8000, 0x000F_1FF3),
        (0xA120_2000, 0x001F_1FF7),
        (0xA120_A000, 0x001F_1FF3),
        (0xA160_2000, 0x000F_1FF7),
        (0xA160_A000, 0x000F_1FF3),
        (0xA120_4000, 0x001F_1FF7),
        (0xA120_C000, 0x001F_1FF3),
        (0xA160_4000, 0x000F_1FF7),
        (0xA160_C000, 0x000F_1FF3),
    ];

    /// What the model says of a store: its answer, memory, patch and elements.
    type Answer = (Result<Stored, Refusal>, Vec<u8>, Vec<u8>, Vec<Element>);

    #[derive(Clone)]
    struct Held {
        x: [u64; 31],
        sp: u64,
        z: [u8; 32 * VB],
        p: [u8; 2 * VB],
    }

    impl Held {
        /// With these every store is done, and each of its registers has active elements.
        fn small(z: [u8; 32 * VB]) -> Held {
            let mut p = [0xFF; 2 * VB];
            p.iter_mut().skip(1).step_by(2).for_each(|byte| *byte = 0x7F);
            Held { x: [0x1000; 31], sp: 0x1000, z, p }
        }

        fn inverted(&self, register: Register) -> Held {
            let mut held = self.clone();
            let bytes = match register {
                X(number) => return Held { x: inverted(self.x, number), ..held },
                Sp => return Held { sp: !self.sp, ..held },
                Z(number) => &mut held.z[VB * number..][..VB],
                P(number) => &mut held.p[VB / 8 * number..][..VB / 8],
            };
            bytes.iter_mut().for_each(|byte| *byte = !*byte);
            held
        }

        fn answer(&self, word: u32) -> Answer {
            let features = Flags::SVE | Flags::SME2 | Flags::SVE2P1;
            let flags = features | Flags::STREAMING | Flags::FA64;
            let Held { x, sp, ref z, ref p } = *self;
            let machine = Machine { vb: VB, flags, x, sp, z, p, ..Machine::default() };
            let (mut memory, mut patch) = (vec![0; 0xA000], vec![0; LARGEST_STORE_PATCH]);
            let window = Window { base: 0, memory: &mut memory };
            let outcome = store(&machine, window, word, &mut patch);
            let elements = (0..).map_while(|number| element(&machine, word, number).unwrap());
            (outcome, memory, patch, elements.collect())
        }
    }

    fn inverted(mut x: [u64; 31], number: usize) -> [u64; 31] {
        x[number] = !x[number];
        x
    }

    /// Numbers that look random, the same each time.
    fn random(state: &mut u64) -> u32 {
        *state = state.wrapping_mul(6_364_136_223_846_793_005).wrapping_add(1);
        (*state >> 32) as u32
    }

    /// The model's answer changes with a register exactly when the store reads it.
    #[test]
    fn what_the_model_reads() {
        let general = (0..31).map(X).chain([Sp]);
        let all: Vec<Register> = general.chain((0..32).map(Z)).chain((0..16).map(P)).collect();
        let mut state = 1;
        for (row, (base, places)) in WORDS.iter().enumerate() {
            let fields: Vec<u32> = (0..20).map(|_| random(&mut state)).collect();
            for fields in fields.into_iter().chain([0, u32::MAX]) {
                let word = base | fields & places;
                assert_eq!(decode(word).unwrap().class, row as u64 + 1);
                let mut z = [0; 32 * VB];
                z.iter_mut().step_by(8).for_each(|byte| *byte = random(&mut state) as u8);
                let held = Held::small(z);
                let answer = held.answer(word);
                assert!(answer.0.is_ok(), "{word:08X}");
                let changes = |register: &Register| held.inverted(*register).answer(word) != answer;
                let changing: BTreeSet<Register> = all.iter().copied().filter(changes).collect();
                assert_eq!(changing, Known::decode(word).unwrap().registers(), "{word:08X}");
            }
        }
        assert!(numbered(WORDS.len() as u64 + 1).is_none(), "a class without a word");
    }

    #[test]
    fn names() {
        let cases = [
            (0xE5A3_D7E7, "sp z3 z7 p5"), // st1d { z7.d }, p5, [sp, z3.d, sxtw #3]
            (0xE582_A002, "x0 z2 p0"),    // st1d { z2.d }, p0, [x0, z2.d]
            (0xA13F_7FF7, "sp z23 z31 p15"), // .., [sp, xzr, lsl #3]
            (0xA125_E453, "x2 x5 z19 z23 z27 z31 p9"),
            (0xA16F_6000, "x0 z0 z8 p8"),
            (0xE421_2043, "x1 z2 z3 p0"), // st1q { z3.q }, p0, [z2.d, x1]
            (0xE43F_3BED, "z13 z31 p6"),  // st1q { z13.q }, p6, [z31.d]
            (0xE4E1_C000, "x0 z0 z1 p0"), // st1h { z0.s }, p0, [x0, z1.s, sxtw #1]
            (0xE523_B7E7, "sp z3 z7 p5"), // st1w { z7.d }, p5, [sp, z3.d, lsl #2]
            (0xA121_8000, "x0 x1 z0 z4 z8 z12 p8"), // st1b { .. }, pn8, [x0, x1]
            (0xA16F_3C17, "x0 z23 z31 p15"), // st1h { .. }, pn15, [x0, #-2, mul vl]
        ];
        for (word, names) in cases {
            let registers = Known::decode(word).unwrap().registers();
            let shown: Vec<String> = registers.iter().map(Register::to_string).collect();
            assert_eq!(shown.join(" "), names, "{word:08X}");
        }
    }
}
