//! Which fields keep a store from having a word.
//!
//! That explains a refusal with 11 and is no part of it.

use crate::classes::{self, Class, Entry, Field, FIRST};
use starshackle::Store;

/// The entries behind the class.
const ENTRIES: [Entry; 6] = [
    Entry::Index,
    Entry::Extension,
    Entry::Predicate,
    Entry::Base,
    Entry::Register,
    Entry::Multiple,
];

/// A note for each field that no word of the class has. The fields that are given name entries
/// that the class lacks.
pub fn notes(store: &Store, given: &[Field]) -> Vec<String> {
    let class = match classes::numbered(store.class) {
        Some(class) => class,
        None => return vec![no_class(store.class, given)],
    };
    let wrong = |entry: &Entry| match class.fields.iter().find(|field| field.entry == *entry) {
        Some(field) => outside(class, field, store),
        None => superfluous(*entry, store, given),
    };
    ENTRIES.iter().filter_map(wrong).collect()
}

fn no_class(number: u64, given: &[Field]) -> String {
    let expected = format!("it may be 1 to {}", classes::count());
    match given.iter().any(|field| field.entry == Entry::Class) {
        true => format!("there is no class {number}; {expected}"),
        false => format!("class was not given; {expected}"),
    }
}

/// What is wrong with a field that the class has.
fn outside(class: &Class, field: &Field, store: &Store) -> Option<String> {
    let Store { class: number, index, predicate, base, register, multiple, .. } = *store;
    let takes = match field.entry {
        Entry::Class => return None,
        Entry::Extension => {
            let none = store.extension.is_none();
            return none.then(|| format!("class {number} needs an extension, uxtw or sxtw"));
        }
        Entry::Index if index > 31 => "0 to 31",
        Entry::Base if base > 31 => "0 to 31",
        Entry::Predicate if predicate > 7 => "0 to 7",
        Entry::Register => first(class, field, register)?,
        Entry::Multiple => self::multiple(class, multiple)?,
        _ => return None,
    };
    let (name, value) = (field.name, field.entry.of(store));
    Some(format!("{name} is {value}; class {number} takes {takes}"))
}

/// The numbers of registers that a class takes, unless this is one.
fn first(class: &Class, field: &Field, register: u64) -> Option<&'static str> {
    let (most, takes) = match (*field == FIRST, class.registers) {
        (true, 2) => (7, "0 to 7 and 16 to 23"),
        (true, _) => (3, "0 to 3 and 16 to 19"),
        (false, _) => return (register > 31).then_some("0 to 31"),
    };
    let names = register <= most || (16..=16 + most).contains(&register);
    (!names).then_some(takes)
}

/// The multiples that a class takes, unless this is one.
fn multiple(class: &Class, multiple: i64) -> Option<&'static str> {
    let step = class.registers as i64;
    let takes = if step == 2 { "-16, -14 .. 14" } else { "-32, -28 .. 28" };
    let names = multiple % step == 0 && (-8..8).contains(&(multiple / step));
    (!names).then_some(takes)
}

/// What is wrong with an entry that the class lacks.
fn superfluous(entry: Entry, store: &Store, given: &[Field]) -> Option<String> {
    let none = Store { class: store.class, ..Store::default() };
    let (value, number) = (entry.of(store), store.class);
    let name = given.iter().find(|field| field.entry == entry).map_or("field", |field| field.name);
    let note = || format!("class {number} has no {name}, which is {value}").to_lowercase();
    (value != entry.of(&none)).then(note)
}

#[cfg(test)]
mod tests {
    use super::*;
    use starshackle::{encode, Extension};

    /// Numbers that look random, the same each time.
    struct Random(u64);

    impl Random {
        fn of<T: Copy>(&mut self, values: &[T]) -> T {
            self.0 = self.0.wrapping_mul(6_364_136_223_846_793_005).wrapping_add(1);
            values[(self.0 >> 33) as usize % values.len()]
        }

        /// A store of a class whose fields are right more often than not.
        fn store(&mut self, class: u64) -> Store {
            let (register, high) = ([0, 3, 16, 19, 31], [4, 7, 8, 15, 20, 23, 24, 32, u64::MAX]);
            let register = if self.of(&[true, true, false]) { &register[..] } else { &high };
            let extensions = [None, None, Some(Extension::Uxtw), Some(Extension::Sxtw)];
            Store {
                class,
                index: self.of(&[0, 0, 31, 32]),
                extension: self.of(&extensions),
                predicate: self.of(&[0, 7, 7, 8]),
                base: self.of(&[0, 1, 31, 32]),
                register: self.of(register),
                multiple: self.of(&[0, 0, 2, -2, 4, 14, 28, -16, -32, 16, -18, 32, i64::MIN]),
            }
        }
    }

    /// There is a note exactly where the model says that there is no word.
    #[test]
    fn notes_agree_with_the_model() {
        let (mut random, mut counts) = (Random(1), [0; 4]);
        for class in (0..=classes::count() + 1).chain([u64::MAX, 1 << 32]) {
            for _ in 0..4_000 {
                let store = random.store(class);
                let notes = notes(&store, &[]);
                assert_eq!(notes.is_empty(), encode(store).is_ok(), "{store:?} {notes:?}");
                counts[notes.len().min(3)] += 1;
            }
        }
        assert!(counts.iter().all(|count| *count > 1_000), "{counts:?}");
    }

    /// Each note is about a field that is wrong by itself.
    #[test]
    fn one_wrong_field_has_one_note() {
        let good = Store { class: 10, ..Store::default() };
        assert_eq!(notes(&good, &[]), [""; 0]);
        let one = |store| {
            let notes = notes(&store, &[]);
            assert_eq!(notes.len(), 1, "{notes:?}");
            notes.concat()
        };
        let text = one(Store { multiple: -1, ..good });
        assert_eq!(text, "multiple is -1; class 10 takes -16, -14 .. 14");
        let text = one(Store { register: 8, ..good });
        assert_eq!(text, "first is 8; class 10 takes 0 to 7 and 16 to 23");
        let text = one(Store { index: 1, ..good });
        assert_eq!(text, "class 10 has no field, which is 1");
        let text = one(Store { class: 1, ..good });
        assert_eq!(text, "class 1 needs an extension, uxtw or sxtw");
    }
}
