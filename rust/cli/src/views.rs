//! The bytes of elements as numbers of a type, by `--as`.
//!
//! The bytes are the model's answer. What they are as a number explains it.

use crate::arguments::{one_of, utf_8, Arguments, Usage};
use crate::floats;
use crate::json::Json;
use crate::notes;

/// The option that asks for it.
pub const AS: &str = "--as";

/// A type of numbers.
pub struct View {
    name: &'static str,
    bytes: usize,
    kind: Kind,
}

enum Kind {
    Unsigned,
    Signed,
    Float,
}

const VIEWS: &[View] = &[
    view("u8", 1, Kind::Unsigned),
    view("u16", 2, Kind::Unsigned),
    view("u32", 4, Kind::Unsigned),
    view("u64", 8, Kind::Unsigned),
    view("i8", 1, Kind::Signed),
    view("i16", 2, Kind::Signed),
    view("i32", 4, Kind::Signed),
    view("i64", 8, Kind::Signed),
    view("f16", 2, Kind::Float),
    view("f32", 4, Kind::Float),
    view("f64", 8, Kind::Float),
];

const fn view(name: &'static str, bytes: usize, kind: Kind) -> View {
    View { name, bytes, kind }
}

impl View {
    /// The type that the arguments ask for, if they do.
    pub fn asked(arguments: &Arguments) -> Result<Option<&'static View>, Usage> {
        let name = match arguments.given(AS) {
            Some(word) => utf_8(word)?,
            None => return Ok(None),
        };
        let names = || one_of(VIEWS.iter().map(|view| view.name));
        let unknown = || Usage(format!("{AS} {}; expected {}", crate::quote::shown(name), names()));
        VIEWS.iter().find(|view| view.name == name).map(Some).ok_or_else(unknown)
    }

    /// An error where elements of so many bytes aren't made of such numbers.
    pub fn check(&self, element: usize) -> Result<(), String> {
        if element % self.bytes == 0 {
            return Ok(());
        }
        let fitting = VIEWS.iter().filter(|view| element % view.bytes == 0).map(|view| view.name);
        Err(format!(
            "{AS} {} takes {} bytes, and the store's elements have {element}; expected {}",
            self.name,
            self.bytes,
            one_of(fitting)
        ))
    }

    /// An element's bytes as numbers, mostly one.
    pub fn text(&self, element: &[u8]) -> String {
        let numbers: Vec<String> =
            element.chunks(self.bytes).map(|bytes| self.number(bytes)).collect();
        numbers.join(" ")
    }

    fn number(&self, bytes: &[u8]) -> String {
        let number = bytes.iter().rev().fold(0u64, |number, byte| number << 8 | u64::from(*byte));
        let bits = 8 * self.bytes as u32;
        match self.kind {
            Kind::Unsigned => number.to_string(),
            Kind::Signed => ((number << (64 - bits)) as i64 >> (64 - bits)).to_string(),
            Kind::Float => floats::text(number, bits),
        }
    }

    /// The head of the table's column.
    pub fn head(&self) -> String {
        format!("as {}", self.name)
    }

    /// The note below the table.
    pub fn note(&self) -> String {
        let kind = match self.kind {
            Kind::Unsigned => "unsigned",
            Kind::Signed => "signed",
            Kind::Float => "floating-point",
        };
        let bits = 8 * self.bytes;
        notes::line(&format!("{} shows the bytes as {kind} numbers of {bits} bits", self.head()))
    }

    pub fn json<'a>(&self, elements: impl Iterator<Item = &'a [u8]>) -> Json {
        let values = elements.map(|bytes| self.text(bytes).into()).collect();
        Json::Object(vec![
            ("type", self.name.into()),
            ("values", Json::List(values)),
            ("proved", false.into()),
        ])
    }
}

#[cfg(test)]
mod tests {
    use super::*;

    fn shown(name: &str, element: &[u8]) -> String {
        VIEWS.iter().find(|view| view.name == name).unwrap().text(element)
    }

    #[test]
    fn numbers() {
        assert_eq!(shown("u8", &[255]), "255");
        assert_eq!(shown("i8", &[255]), "-1");
        assert_eq!(shown("i16", &[0, 0x80]), "-32768");
        assert_eq!(shown("u64", &[255; 8]), u64::MAX.to_string());
        assert_eq!(shown("i64", &[255; 8]), "-1");
        assert_eq!(shown("f16", &[0, 0x3E, 1, 0]), "1.5 5.9604645e-8");
        assert_eq!(shown("f32", &[0, 0, 0xC0, 0x7F]), "nan");
        assert_eq!(shown("f64", &[0, 0, 0, 0, 0, 0, 0xD0, 0xBF]), "-0.25");
    }
}
