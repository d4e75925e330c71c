//! The counter of a strided store, by which its elements are active.
//!
//! The model tells of each element whether it is active. What is read here from the counter's bits
//! explains that, and is no part of the answer.

use crate::json::Json;
use crate::known::Known;
use starshackle::Machine;
use std::ops::Range;

/// A counter at a vector length.
pub struct Counter {
    /// The predicate register, by the name that it has as a counter.
    register: String,
    value: u16,
    /// The highest bit of a count, log2(4 VB).
    highest: u32,
    /// None where the counter has no element size.
    count: Option<Count>,
    /// How many elements the store has, and how many bits each of them.
    elements: u64,
    own: u64,
    vb: usize,
}

/// What the bits say.
struct Count {
    /// The counter's elements, in bits.
    size: u64,
    count: u64,
    inverted: bool,
    /// Those above the highest bit, up to 14.
    ignored: u16,
}

impl Counter {
    /// The counter of a store with so many elements of so many bytes, if it has one.
    pub fn of(known: &Known, machine: &Machine, elements: usize, bytes: u64) -> Option<Counter> {
        let (register, vb) = (known.counter()?, machine.vb);
        let low = machine.p.get(vb.checked_mul(register)? / 8..)?.get(..2)?;
        let value = u16::from_le_bytes([low[0], low[1]]);
        let highest = vb.checked_mul(4)?.checked_next_power_of_two()?.trailing_zeros();
        let register = known.counter_name()?;
        let (count, elements) = (Count::of(value, highest), elements as u64);
        Some(Counter { register, value, highest, count, elements, own: 8 * bytes, vb })
    }

    /// Of the store's elements, one in so many starts where an element of the counter starts.
    fn every(&self) -> u64 {
        self.count.as_ref().map_or(1, |count| (count.size / self.own).max(1))
    }

    /// The elements that are active by it, where they start with one of the counter's: the first and
    /// the one behind the last.
    fn active(&self) -> Range<u64> {
        match &self.count {
            None => 0..0,
            Some(count) => {
                // Where the counter's element with the number of the count starts, or the next of the
                // store's behind it.
                let border = (count.count * count.size + self.own - 1) / self.own;
                let border = border.min(self.elements);
                if count.inverted {
                    border..self.elements
                } else {
                    0..border
                }
            }
        }
    }

    /// Whether an element is active by it.
    #[cfg(test)]
    fn makes_active(&self, number: u64) -> bool {
        number % self.every() == 0 && self.active().contains(&number)
    }

    /// The lines about it.
    pub fn text(&self) -> String {
        let Counter { register, value, highest, vb, .. } = self;
        let note = format!("  note (not proved): counter {register} is 0x{value:04X}:");
        let active = self.active_text();
        let Count { size, count, inverted, ignored } = match &self.count {
            None => return format!("{note} its low four bits are 0, so {active}\n"),
            Some(count) => count,
        };
        let inverted = if *inverted { "inverted" } else { "not inverted" };
        let mut text =
            format!("{note} element size {size}, count {count}, {inverted}, so {active}\n");
        if self.every() > 1 {
            let own = format!("the store's elements have {} bits", self.own);
            let starts = format!("only {} one starts an element of the counter", self.ordinal());
            text += &format!("  note (not proved): {own}: {starts}, the others are inactive\n");
        }
        if *ignored != 0 {
            let bits = format!("bits {} to 14 of {register}, here 0x{ignored:04X}", highest + 1);
            text += &format!("  note (not proved): {bits}, are ignored at VB {vb}\n");
        }
        text
    }

    /// Which elements start with one of the counter's, where not all do.
    fn ordinal(&self) -> &'static str {
        match self.every() {
            2 => "every second",
            4 => "every fourth",
            _ => "every eighth",
        }
    }

    fn active_text(&self) -> String {
        let (every, ordinal) = (self.every(), self.ordinal());
        match self.active() {
            Range { start, end } if start >= end => "no element is active".to_string(),
            Range { start, end } if end - start <= every => {
                format!("only element {start} is active")
            }
            Range { start: 0, end } if every > 1 && end == self.elements => {
                format!("{ordinal} element is active")
            }
            Range { start: 0, end } if every > 1 => {
                format!("{ordinal} element below {end} is active")
            }
            Range { start, .. } if every > 1 => {
                format!("{ordinal} element from {start} on is active")
            }
            Range { start: 0, end } if end == self.elements => {
                "all elements are active".to_string()
            }
            Range { start: 0, end } => format!("elements below {end} are active"),
            Range { start, .. } => format!("elements from {start} on are active"),
        }
    }

    pub fn json(&self) -> Json {
        let hexadecimal = |value: u16| format!("0x{value:04X}");
        let count = self.count.as_ref();
        Json::Object(vec![
            ("register", self.register.as_str().into()),
            ("value", hexadecimal(self.value).into()),
            ("element_size", count.map(|count| count.size).into()),
            ("store_element_size", self.own.into()),
            ("every", count.map(|_| self.every()).into()),
            ("count", count.map(|count| count.count).into()),
            ("inverted", count.map(|count| count.inverted).into()),
            ("highest_bit", u64::from(self.highest).into()),
            ("ignored", count.map(|count| hexadecimal(count.ignored)).into()),
            ("proved", false.into()),
        ])
    }
}

impl Count {
    /// What a counter says whose count goes up to this bit.
    fn of(value: u16, highest: u32) -> Option<Count> {
        let lowest = value.trailing_zeros();
        let below = |bits: u32| (1u32 << bits) - 1;
        let up_to = u32::from(value) & below(highest + 1);
        (lowest < 4).then(|| Count {
            size: 8 << lowest,
            count: u64::from(up_to >> (lowest + 1)),
            inverted: value >> 15 == 1,
            ignored: value & 0x7FFF & !below(highest + 1) as u16,
        })
    }
}

#[cfg(test)]
mod tests {
    use super::*;
    use starshackle::element;

    const LENGTHS: [usize; 5] = [16, 32, 64, 128, 256];
    /// Two and four registers, with pn8 and pn15, of each element size, in bytes.
    const WORDS: [(u32, usize, usize); 8] = [
        (0xA160_6000, 8, 8),
        (0xA160_FC00, 15, 8),
        (0xA160_0000, 8, 1),
        (0xA160_9C00, 15, 1),
        (0xA160_2000, 8, 2),
        (0xA160_BC00, 15, 2),
        (0xA160_4000, 8, 4),
        (0xA160_DC00, 15, 4),
    ];

    fn counter(word: u32, vb: usize, p: &[u8], elements: u64, bytes: usize) -> Counter {
        let (machine, bytes) = (Machine { vb, p, ..Machine::default() }, bytes as u64);
        Counter::of(&Known::decode(word).unwrap(), &machine, elements as usize, bytes).unwrap()
    }

    /// Every counter makes those elements active of which the model says it. Of narrow elements as many
    /// are looked at as there are doublewords, others for each counter.
    #[test]
    fn activity_is_the_models() {
        for vb in LENGTHS {
            let z = vec![0; 32 * vb];
            for (word, register, bytes) in WORDS {
                for value in 0..=u16::MAX {
                    let mut p = vec![0xA5; 2 * vb];
                    p[register * vb / 8..][..2].copy_from_slice(&value.to_le_bytes());
                    let machine = Machine { vb, z: &z, p: &p, ..Machine::default() };
                    let elements = starshackle::elements(&machine, word).unwrap();
                    let counter = counter(word, vb, &p, elements, bytes);
                    let step = 8 / bytes;
                    let first = u64::from(value >> 4) % step as u64;
                    for number in (first..elements).step_by(step) {
                        let element = element(&machine, word, number).unwrap().unwrap();
                        let active = counter.makes_active(number);
                        assert_eq!(active, element.active, "{value:04X}, {vb}");
                    }
                }
            }
        }
    }

    #[test]
    fn other_stores_have_none() {
        let (z, p) = ([0; 32 * 16], [0; 2 * 16]);
        let machine = Machine { vb: 16, z: &z, p: &p, ..Machine::default() };
        let of = |word, machine: &Machine| {
            Counter::of(&Known::decode(word).unwrap(), machine, 2, 8).is_some()
        };
        assert!(of(0xA160_6000, &machine));
        assert!(!of(0xE582_A001, &machine) && !of(0xE421_2043, &machine));
        for vb in [0, 17, 512, usize::MAX / 8, usize::MAX / 8 + 1] {
            let other = Machine { vb, p: &[], ..machine };
            assert!(!of(0xA160_6000, &other), "{vb}");
        }
    }

    #[test]
    fn texts() {
        let text = |value: u16, vb: usize| {
            let mut p = vec![0; 2 * vb];
            p[vb..vb + 2].copy_from_slice(&value.to_le_bytes());
            counter(0xA160_6000, vb, &p, vb as u64 / 4, 8).text()
        };
        let is = "  note (not proved): counter pn8 is";
        let none = "its low four bits are 0, so no element is active\n";
        let one = "element size 64, count 1, not inverted, so only element 0 is active\n";
        let all = "element size 64, count 65, not inverted, so all elements are active\n";
        let ignored =
            "  note (not proved): bits 7 to 14 of pn8, here 0x0400, are ignored at VB 16\n";
        assert_eq!(text(0x8000, 16), format!("{is} 0x8000: {none}"));
        assert_eq!(text(0x0018, 16), format!("{is} 0x0018: {one}"));
        assert_eq!(text(0x0418, 16), format!("{is} 0x0418: {one}{ignored}"));
        assert_eq!(text(0x0418, 256), format!("{is} 0x0418: {all}"));
        let two = "element size 8, count 9, not inverted, so elements below 2 are active\n";
        assert_eq!(text(0x0013, 16), format!("{is} 0x0013: {two}"));
        let last = "element size 64, count 3, inverted, so only element 3 is active\n";
        assert_eq!(text(0x8038, 16), format!("{is} 0x8038: {last}"));
        let some = "element size 16, count 4, inverted, so elements from 1 on are active\n";
        assert_eq!(text(0x8012, 16), format!("{is} 0x8012: {some}"));
        let no = "element size 64, count 5, inverted, so no element is active\n";
        assert_eq!(text(0x8058, 16), format!("{is} 0x8058: {no}"));
    }

    #[test]
    fn texts_of_gaps() {
        let text = |word: u32, bytes: usize, value: u16| {
            let mut p = vec![0; 32];
            p[16..18].copy_from_slice(&value.to_le_bytes());
            counter(word, 16, &p, 64 / bytes as u64, bytes).text()
        };
        let (bytes, words) = (0xA160_8000, 0xA160_C000);
        let is = "  note (not proved): counter pn8 is";
        let gaps = |own: u64, ordinal: &str| {
            let own = format!("  note (not proved): the store's elements have {own} bits");
            format!("{own}: only {ordinal} one starts an element of the counter, the others are inactive\n")
        };
        let all = "element size 16, count 0, inverted, so every second element is active\n";
        assert_eq!(
            text(bytes, 1, 0x8002),
            format!("{is} 0x8002: {all}{}", gaps(8, "every second"))
        );
        let below =
            "element size 32, count 3, not inverted, so every fourth element below 12 is active\n";
        assert_eq!(
            text(bytes, 1, 0x001C),
            format!("{is} 0x001C: {below}{}", gaps(8, "every fourth"))
        );
        let from =
            "element size 64, count 1, inverted, so every eighth element from 8 on is active\n";
        assert_eq!(
            text(bytes, 1, 0x8018),
            format!("{is} 0x8018: {from}{}", gaps(8, "every eighth"))
        );
        let one = "element size 64, count 1, not inverted, so only element 0 is active\n";
        assert_eq!(
            text(words, 4, 0x0018),
            format!("{is} 0x0018: {one}{}", gaps(32, "every second"))
        );
        let last = "element size 64, count 7, inverted, so only element 14 is active\n";
        assert_eq!(
            text(words, 4, 0x8078),
            format!("{is} 0x8078: {last}{}", gaps(32, "every second"))
        );
        let none = "element size 16, count 0, not inverted, so no element is active\n";
        assert_eq!(
            text(bytes, 1, 0x0002),
            format!("{is} 0x0002: {none}{}", gaps(8, "every second"))
        );
        let equal = "element size 32, count 2, not inverted, so elements below 2 are active\n";
        assert_eq!(text(words, 4, 0x0014), format!("{is} 0x0014: {equal}"));
    }
}
