//! The names in a file that describes a store.

use crate::classes::Field;
use crate::fields;
use crate::register::Register;
use std::fmt::{self, Display, Formatter};

#[derive(Clone, Copy)]
pub struct Name {
    pub subject: Subject,
    /// The width behind the name of a register, in bytes.
    pub width: Option<Width>,
    /// What the elements of a Z register are, behind the width.
    pub kind: Option<Kind>,
}

/// What a line is about.
#[derive(Clone, Copy, PartialEq, Eq)]
pub enum Subject {
    Word,
    Field(&'static Field),
    Vb,
    Flags,
    Edition,
    Register(Register),
    /// The window's address.
    Window,
    /// How many bytes the window has.
    Length,
    /// The bytes in the window.
    Memory,
}

/// An element's width.
#[derive(Clone, Copy)]
pub struct Width {
    pub letter: char,
    pub bytes: usize,
}

/// What elements are, as gdb has it.
#[derive(Clone, Copy, PartialEq, Eq)]
pub enum Kind {
    Float,
    Unsigned,
    Signed,
}

const KINDS: &[(&str, Kind)] = &[("f", Kind::Float), ("u", Kind::Unsigned), ("s", Kind::Signed)];

impl Kind {
    /// The kind of a name that elements of a width may be.
    pub fn named(name: &str, width: Width) -> Option<Kind> {
        let kind = KINDS.iter().find(|(other, _)| *other == name)?.1;
        (kind != Kind::Float || width.has_floats()).then_some(kind)
    }
}

impl Width {
    pub const BYTE: Width = width('b', 1);

    pub fn named(letter: &str) -> Option<Width> {
        WIDTHS.iter().copied().find(|width| letter == width.letter.to_string())
    }

    /// Whether there are floating-point numbers of this width.
    pub fn has_floats(self) -> bool {
        (2..=8).contains(&self.bytes)
    }
}

/// As Arm's assembly text has them.
const WIDTHS: &[Width] =
    &[width('b', 1), width('h', 2), width('s', 4), width('d', 8), width('q', 16)];

const fn width(letter: char, bytes: usize) -> Width {
    Width { letter, bytes }
}

const PLAIN: &[(&str, Subject)] = &[
    ("word", Subject::Word),
    ("vb", Subject::Vb),
    ("flags", Subject::Flags),
    ("edition", Subject::Edition),
    ("window", Subject::Window),
    ("length", Subject::Length),
    ("memory", Subject::Memory),
];

impl Name {
    pub const EXPECTED: &'static str =
        "word, a field as `starshackle encode` takes it, vb, flags, edition, \
        x0 to x30, sp, z0 to z31, p0 to p15, window, length or memory";

    pub fn read(text: &str) -> Option<Name> {
        let text = text.to_ascii_lowercase();
        if let Some(subject) = plain(&text) {
            return Some(Name { subject, width: None, kind: None });
        }
        let mut parts = text.split('.');
        let register = Register::named(parts.next()?)?;
        let width = parts.next().map(|letter| Width::named(letter).ok_or(())).transpose().ok()?;
        let kind =
            parts.next().map(|name| width.and_then(|width| Kind::named(name, width)).ok_or(()));
        let kind = kind.transpose().ok()?;
        let takes = match register {
            Register::Z(_) => true,
            Register::P(_) => kind.is_none(),
            _ => width.is_none(),
        };
        let subject = Subject::Register(register);
        (takes && parts.next().is_none()).then_some(Name { subject, width, kind })
    }

    /// Whether both are about the same thing.
    pub fn repeats(&self, other: &Name) -> bool {
        match (self.subject, other.subject) {
            (Subject::Field(field), Subject::Field(other)) => field.shares(other),
            (Subject::Field(_), Subject::Word) | (Subject::Word, Subject::Field(_)) => true,
            (subject, other) => subject == other,
        }
    }
}

fn plain(text: &str) -> Option<Subject> {
    let found = PLAIN.iter().find(|(name, _)| *name == text).map(|(_, subject)| *subject);
    found.or_else(|| fields::named(text).map(Subject::Field))
}

impl Display for Name {
    fn fmt(&self, f: &mut Formatter) -> fmt::Result {
        match self.subject {
            Subject::Field(field) => f.write_str(field.name)?,
            Subject::Register(register) => register.fmt(f)?,
            subject => {
                let name = PLAIN.iter().find(|(_, other)| *other == subject);
                f.write_str(name.map_or("", |(name, _)| name))?;
            }
        }
        self.width.map_or(Ok(()), |width| write!(f, ".{}", width.letter))?;
        let kind = KINDS.iter().find(|(_, kind)| Some(*kind) == self.kind);
        kind.map_or(Ok(()), |(name, _)| write!(f, ".{name}"))
    }
}

#[cfg(test)]
mod tests {
    use super::*;

    #[test]
    fn names() {
        for name in [
            "word", "zm", "rm", "class", "x0", "x30", "sp", "z31", "z1.q", "p0.b", "memory",
            "z1.d.f",
        ] {
            assert_eq!(Name::read(name).unwrap().to_string(), name);
        }
        assert_eq!(Name::read("PN8").unwrap().to_string(), "p8");
        let wrong = [
            "", "x31", "x01", "x+1", "xzr", "z32", "p16", "pn7", "pn16", "x0.d", "z1.", "z1.w",
            "z1.d.d", "z1.b.f", "z1.q.f", "z1.d.f.f", "p1.d.u", "x1..f",
        ];
        for name in
            wrong.into_iter().chain(["x", "x99999999999999999999", "z1 ", "sp.d", "é", "x٣"])
        {
            assert!(Name::read(name).is_none(), "{name}");
        }
    }

    #[test]
    fn repetitions() {
        let repeats = |a, b| Name::read(a).unwrap().repeats(&Name::read(b).unwrap());
        for (a, b) in
            [("x0", "X0"), ("z1", "z1.d"), ("p8", "pn8.b"), ("zm", "rm"), ("word", "class")]
        {
            assert!(repeats(a, b) && repeats(b, a), "{a} {b}");
        }
        assert!(!repeats("x0", "x1") && !repeats("z1", "p1") && !repeats("zm", "zt"));
    }
}
