//! A decoded store as answers show it.

use crate::classes::{self, Class, Field, PC, ZN};
use crate::json::Json;
use crate::reads;
use crate::register::Register;
use starshackle::{assembly, Flags, Refusal, Store};
use std::collections::BTreeSet;

/// A store with its class.
pub struct Known {
    store: Store,
    class: &'static Class,
}

/// The members that a word's store has in JSON.
pub fn members(known: Option<&Known>) -> [(&'static str, Json); 5] {
    let [class, class_name] = class_members(known);
    [
        class,
        class_name,
        ("fields", known.map(Known::fields).into()),
        ("counter", known.and_then(Known::counter_name).into()),
        ("assembly", known.and_then(Known::assembly).into()),
    ]
}

fn class_members(known: Option<&Known>) -> [(&'static str, Json); 2] {
    [
        ("class", known.map(|known| known.store.class).into()),
        ("class_name", known.map(|known| known.class.name).into()),
    ]
}

impl Known {
    pub fn decode(word: u32) -> Result<Known, Refusal> {
        let store = starshackle::decode(word)?;
        let class = classes::numbered(store.class).expect("each of the model's classes has a name");
        Ok(Known { store, class })
    }

    /// The registers that the store reads.
    pub fn registers(&self) -> BTreeSet<Register> {
        reads::registers(self.class, &self.store)
    }

    pub fn text(&self) -> String {
        let Known { store, class } = self;
        let fields: Vec<String> = class.fields.iter().map(|field| self.field(field)).collect();
        let assembly = assembly::text(store).unwrap_or_default();
        format!(
            "{}\n  {}\n  assembly (not proved): {assembly}\n",
            self.class_text(),
            fields.join(", "),
        )
    }

    pub fn store(&self) -> &Store {
        &self.store
    }

    /// The number of the class.
    pub fn class(&self) -> u64 {
        self.store.class
    }

    /// The flag without which the class is undefined.
    pub fn needs(&self) -> Flags {
        match self.class.fields {
            fields if fields.contains(&PC) => Flags::SME2,
            fields if fields.contains(&ZN) => Flags::SVE2P1,
            _ => Flags::SVE,
        }
    }

    /// The class by number and name.
    pub fn class_text(&self) -> String {
        format!("class {}, {}", self.store.class, self.class.name)
    }

    /// The same in JSON.
    pub fn class_members(&self) -> [(&'static str, Json); 2] {
        class_members(Some(self))
    }

    fn field(&self, field: &Field) -> String {
        let text = format!("{} {}", field.label, field.entry.of(&self.store));
        match self.counter_name() {
            Some(counter) if *field == PC => format!("{text} ({counter})"),
            _ => text,
        }
    }

    /// The number of the predicate register that Pc names.
    pub fn counter(&self) -> Option<usize> {
        let counts = self.class.fields.contains(&PC);
        counts.then_some(8 + self.store.predicate as usize)
    }

    /// Its name as a counter.
    pub fn counter_name(&self) -> Option<String> {
        self.counter().map(|register| format!("pn{register}"))
    }

    fn fields(&self) -> Json {
        let value = |field: &Field| field.entry.of(&self.store).into();
        Json::Object(self.class.fields.iter().map(|field| (field.name, value(field))).collect())
    }

    fn assembly(&self) -> Option<Json> {
        let text = assembly::text(&self.store)?;
        Some(Json::Object(vec![("text", text.into()), ("proved", false.into())]))
    }
}
