//! Which fields of a store may be given together.

use crate::arguments::Usage;
use crate::classes::{self, Field, FIELDS};

/// The field with this name.
pub fn named(name: &str) -> Option<&'static Field> {
    FIELDS.iter().find(|field| field.name.eq_ignore_ascii_case(name))
}

impl Field {
    /// Whether both name the same entry of a store.
    pub fn shares(&self, other: &Field) -> bool {
        self.entry == other.entry
    }
}

/// What is wrong with two fields that share an entry.
pub fn repetition(first: &Field, second: &Field) -> Usage {
    let name = second.name;
    if first == second {
        return Usage(format!("{name} given twice; expected one"));
    }
    Usage(format!("both {} and {name} given; expected one", first.name))
}

/// Whether the class with this number has no other name for a field.
pub fn of_class(number: u64, field: &Field) -> Result<(), Usage> {
    let fields = classes::numbered(number).map_or(&[][..], |class| class.fields);
    match fields.iter().find(|other| other.shares(field)) {
        Some(other) if other != field => {
            let (wrong, right) = (field.name, other.name);
            Err(Usage(format!("class {number} has no {wrong}; expected {right}")))
        }
        _ => Ok(()),
    }
}
