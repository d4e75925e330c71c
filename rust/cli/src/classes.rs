//! The names of the classes and of their fields.

use crate::json::Json;
use crate::numbers;
use starshackle::{Extension, Store};
use std::fmt::{self, Display, Formatter};

pub struct Class {
    pub name: &'static str,
    pub fields: &'static [Field],
    /// How many vector registers a store of the class has.
    pub registers: usize,
}

/// A name for an entry of a store. Some entries have two, of which a class has one.
#[derive(Clone, Copy, PartialEq, Eq)]
pub struct Field {
    /// As text shows it.
    pub label: &'static str,
    /// As `encode` takes it and JSON has it.
    pub name: &'static str,
    pub entry: Entry,
}

/// A part of a [`Store`].
#[derive(Clone, Copy, PartialEq, Eq)]
pub enum Entry {
    Class,
    Index,
    Extension,
    Predicate,
    Base,
    Register,
    Multiple,
}

/// What an entry holds.
#[derive(PartialEq, Eq)]
pub enum Value {
    Number(i128),
    Extension(Option<Extension>),
}

const CLASS: Field = field("class", "class", Entry::Class);
pub const ZM: Field = field("Zm", "zm", Entry::Index);
pub const RM: Field = field("Rm", "rm", Entry::Index);
const XS: Field = field("xs", "extension", Entry::Extension);
pub const PG: Field = field("Pg", "pg", Entry::Predicate);
pub const PC: Field = field("Pc", "pc", Entry::Predicate);
pub const RN: Field = field("Rn", "rn", Entry::Base);
pub const ZN: Field = field("Zn", "zn", Entry::Base);
pub const ZT: Field = field("Zt", "zt", Entry::Register);
pub const FIRST: Field = field("first register", "first", Entry::Register);
const MULTIPLE: Field = field("multiple", "multiple", Entry::Multiple);

/// Every field.
pub const FIELDS: &[Field] = &[CLASS, ZM, RM, XS, PG, PC, RN, ZN, ZT, FIRST, MULTIPLE];

const EXTENDED: &[Field] = &[ZM, XS, PG, RN, ZT];
const SCATTER: &[Field] = &[ZM, PG, RN, ZT];
const SCALAR: &[Field] = &[RM, PC, RN, FIRST];
const IMMEDIATE: &[Field] = &[PC, RN, FIRST, MULTIPLE];
const QUADWORD: &[Field] = &[RM, PG, ZN, ZT];

/// The classes in the order of their numbers, which start at 1.
const CLASSES: &[Class] = &[
    class("ST1D, 32-bit unpacked scaled", EXTENDED),
    class("ST1D, 32-bit unpacked unscaled", EXTENDED),
    class("ST1D, 64-bit scaled", SCATTER),
    class("ST1D, 64-bit unscaled", SCATTER),
    class("ST1B, 32-bit unpacked", EXTENDED),
    class("ST1B, 32-bit", EXTENDED),
    class("ST1B, 64-bit", SCATTER),
    strided("ST1D strided, two, scalar", SCALAR, 2),
    strided("ST1D strided, four, scalar", SCALAR, 4),
    strided("ST1D strided, two, immediate", IMMEDIATE, 2),
    strided("ST1D strided, four, immediate", IMMEDIATE, 4),
    class("ST1Q", QUADWORD),
    class("ST1H, 32-bit unpacked scaled", EXTENDED),
    class("ST1H, 32-bit unpacked unscaled", EXTENDED),
    class("ST1H, 64-bit scaled", SCATTER),
    class("ST1H, 64-bit unscaled", SCATTER),
    class("ST1H, 32-bit scaled", EXTENDED),
    class("ST1H, 32-bit unscaled", EXTENDED),
    class("ST1W, 32-bit unpacked scaled", EXTENDED),
    class("ST1W, 32-bit unpacked unscaled", EXTENDED),
    class("ST1W, 64-bit scaled", SCATTER),
    class("ST1W, 64-bit unscaled", SCATTER),
    class("ST1W, 32-bit scaled", EXTENDED),
    class("ST1W, 32-bit unscaled", EXTENDED),
    strided("ST1B strided, two, scalar", SCALAR, 2),
    strided("ST1B strided, four, scalar", SCALAR, 4),
    strided("ST1B strided, two, immediate", IMMEDIATE, 2),
    strided("ST1B strided, four, immediate", IMMEDIATE, 4),
    strided("ST1H strided, two, scalar", SCALAR, 2),
    strided("ST1H strided, four, scalar", SCALAR, 4),
    strided("ST1H strided, two, immediate", IMMEDIATE, 2),
    strided("ST1H strided, four, immediate", IMMEDIATE, 4),
    strided("ST1W strided, two, scalar", SCALAR, 2),
    strided("ST1W strided, four, scalar", SCALAR, 4),
    strided("ST1W strided, two, immediate", IMMEDIATE, 2),
    strided("ST1W strided, four, immediate", IMMEDIATE, 4),
];

const EXTENSIONS: &[(&str, Option<Extension>)] =
    &[("none", None), ("uxtw", Some(Extension::Uxtw)), ("sxtw", Some(Extension::Sxtw))];

const fn field(label: &'static str, name: &'static str, entry: Entry) -> Field {
    Field { label, name, entry }
}

const fn class(name: &'static str, fields: &'static [Field]) -> Class {
    strided(name, fields, 1)
}

const fn strided(name: &'static str, fields: &'static [Field], registers: usize) -> Class {
    Class { name, fields, registers }
}

/// How many classes there are.
pub fn count() -> u64 {
    CLASSES.len() as u64
}

/// The class of a number, if it has a name.
pub fn numbered(number: u64) -> Option<&'static Class> {
    CLASSES.get(usize::try_from(number).ok()?.checked_sub(1)?)
}

impl Entry {
    pub fn of(self, store: &Store) -> Value {
        Value::Number(match self {
            Entry::Class => store.class.into(),
            Entry::Index => store.index.into(),
            Entry::Extension => return Value::Extension(store.extension),
            Entry::Predicate => store.predicate.into(),
            Entry::Base => store.base.into(),
            Entry::Register => store.register.into(),
            Entry::Multiple => store.multiple.into(),
        })
    }

    /// Reads the entry from a text. The error is what was expected.
    pub fn put(self, store: &mut Store, text: &str) -> Result<(), &'static str> {
        let place = match self {
            Entry::Class => &mut store.class,
            Entry::Index => &mut store.index,
            Entry::Predicate => &mut store.predicate,
            Entry::Base => &mut store.base,
            Entry::Register => &mut store.register,
            Entry::Extension => {
                let expected = "none, uxtw or sxtw";
                return put(&mut store.extension, extension(text), expected);
            }
            Entry::Multiple => {
                let expected = "a number of 64 bits with its sign, decimal or 0x hexadecimal";
                return put(&mut store.multiple, numbers::signed(text), expected);
            }
        };
        put(place, numbers::number(text), numbers::EXPECTED)
    }
}

fn put<T>(place: &mut T, value: Option<T>, expected: &'static str) -> Result<(), &'static str> {
    *place = value.ok_or(expected)?;
    Ok(())
}

fn extension(text: &str) -> Option<Option<Extension>> {
    EXTENSIONS.iter().find(|(name, _)| name.eq_ignore_ascii_case(text)).map(|&(_, value)| value)
}

fn extension_name(extension: Option<Extension>) -> &'static str {
    EXTENSIONS.iter().find(|&&(_, value)| value == extension).map_or("", |&(name, _)| name)
}

impl Display for Value {
    fn fmt(&self, f: &mut Formatter) -> fmt::Result {
        match self {
            Value::Number(number) => number.fmt(f),
            Value::Extension(value) => extension_name(*value).to_uppercase().fmt(f),
        }
    }
}

impl From<Value> for Json {
    fn from(value: Value) -> Json {
        match value {
            Value::Number(number) => number.into(),
            Value::Extension(value) => extension_name(value).into(),
        }
    }
}
