//! Reading a file that describes a store.

#[macro_use]
mod help;
mod contents;
mod gdb;
mod lines;
mod names;
mod values;

use crate::classes::Field;
use crate::command::Failure;
use crate::register::Register;
use crate::wrong_fields::notes;
use crate::{fields, input, numbers};
use lines::{is, lines, Line};
use names::Subject;
use starshackle::{assembly, elements, Edition, Flags, Machine, Refusal, Store, LARGEST_WINDOW};
use std::collections::BTreeSet;
use std::ffi::OsStr;
use std::path::Path;

/// What such a file is, for messages.
pub const EXPECTED: &str = "a text that describes a store";

/// A store with all that it works on.
pub struct Described {
    /// The word, or why the fields have none.
    pub word: Result<u32, Refusal>,
    /// Notes about the fields that have no word.
    pub wrong_fields: Vec<String>,
    pub registers: Registers,
    /// The window's address and length.
    pub base: u64,
    pub length: u64,
    /// The bytes in the window, as many as the model has to see.
    pub memory: Vec<u8>,
}

/// The registers with their bytes.
pub struct Registers {
    vb: usize,
    flags: Flags,
    edition: Edition,
    x: [u64; 31],
    sp: u64,
    z: Vec<u8>,
    p: Vec<u8>,
    gives_vb: bool,
    /// Those that a line is about, be it 0 or not. A line gives all of its register.
    given: BTreeSet<Register>,
}

impl Registers {
    pub fn machine(&self) -> Machine<'_> {
        let Registers { vb, flags, edition, x, sp, ref z, ref p, .. } = *self;
        Machine { vb, flags, edition, x, sp, z, p }
    }

    /// Whether the file has a line about a register.
    pub fn gives(&self, register: &Register) -> bool {
        self.given.contains(register)
    }

    /// Whether the file has a line about VB.
    pub fn gives_vb(&self) -> bool {
        self.gives_vb
    }

    /// Registers of 0. For a length that the model refuses there are none.
    fn zero(vb: usize, flags: Flags, edition: Edition) -> Registers {
        let empty = Machine { vb, flags, edition, ..Machine::default() };
        let length = if elements(&empty, 0) == Err(Refusal::Length) { 0 } else { vb };
        let (z, p) = (vec![0; 32 * length], vec![0; 2 * length]);
        let (gives_vb, given) = (false, BTreeSet::new());
        Registers { vb, flags, edition, x: [0; 31], sp: 0, z, p, gives_vb, given }
    }

    /// Puts a line's value into a register.
    fn put(&mut self, register: Register, line: &Line) -> Result<(), Failure> {
        self.given.insert(register);
        match register {
            Register::X(number) => self.x[number] = values::general(line)?,
            Register::Sp => self.sp = values::general(line)?,
            Register::Z(number) => put(&mut self.z, number, 32, line, values::vector)?,
            Register::P(number) => put(&mut self.p, number, 16, line, values::predicate)?,
        }
        Ok(())
    }
}

/// The model refuses this window and longer ones, so that no longer one has to be lent.
const LONGEST: u64 = LARGEST_WINDOW as u64 + 1;

/// The flags by name.
const FLAGS: &[(&str, Flags)] = &[
    ("sve", Flags::SVE),
    ("sme2", Flags::SME2),
    ("sve2p1", Flags::SVE2P1),
    ("streaming", Flags::STREAMING),
    ("fa64", Flags::FA64),
    ("sp-check", Flags::SP_CHECK),
    ("sp-check-none-active", Flags::SP_CHECK_NONE_ACTIVE),
    ("strict", Flags::STRICT),
];

/// The name of one flag.
pub fn flag_name(flag: Flags) -> &'static str {
    FLAGS.iter().find(|(_, other)| *other == flag).map_or("", |(name, _)| name)
}

pub fn read(path: &OsStr) -> Result<Described, Failure> {
    of_text(&input::name(path), &input::text(path, EXPECTED)?, folder(path))
}

/// The store that a text describes, whose name is as messages show it. Files that it names are looked
/// for in the folder.
pub fn of_text(name: &str, text: &str, folder: &Path) -> Result<Described, Failure> {
    let lines = lines(name, text)?;
    let (word, wrong_fields) = word(&lines)?.ok_or_else(|| no_word(name, text))?;
    let registers = registers(&lines)?;
    let base = number(&lines, Subject::Window)?.unwrap_or(0);
    let (length, memory) = window(&lines, folder)?;
    Ok(Described { word, wrong_fields, registers, base, length, memory })
}

fn find<'a, 'b>(lines: &'a [Line<'b>], subject: Subject) -> Option<&'a Line<'b>> {
    lines.iter().find(|line| line.name.subject == subject)
}

/// The number in the line about something, if there is one.
fn number(lines: &[Line], subject: Subject) -> Result<Option<u64>, Failure> {
    find(lines, subject).map(|line| line.read(numbers::number, numbers::EXPECTED)).transpose()
}

/// What is wrong with a file that has come to its end.
fn no_word(name: &str, text: &str) -> Failure {
    let last = text.lines().count().max(1);
    let expected = "a line word = WORD, or class = N and other fields";
    Failure::File(format!("{name}:{last}: the end, and no word; expected {expected}"))
}

/// A word, or why there is none, with notes about the fields that are wrong.
type Word = (Result<u32, Refusal>, Vec<String>);

/// The given word, or that of the given fields, if any are given.
fn word(lines: &[Line]) -> Result<Option<Word>, Failure> {
    if let Some(line) = find(lines, Subject::Word) {
        return Ok(Some((Ok(given_word(line)?), vec![])));
    }
    let (mut store, mut given) = (Store::default(), Vec::new());
    for line in lines {
        if let Subject::Field(field) = line.name.subject {
            let put = field.entry.put(&mut store, &line.value);
            put.map_err(|expected| line.unexpected(&is(&line.value), expected))?;
            given.push((line, field));
        }
    }
    for (line, field) in &given {
        fields::of_class(store.class, field).map_err(|usage| line.problem(&usage.0))?;
    }
    let fields: Vec<Field> = given.iter().map(|(_, field)| **field).collect();
    Ok((!given.is_empty()).then(|| (starshackle::encode(store), notes(&store, &fields))))
}

/// A word by its number or its assembly text, which starts as no number does.
fn given_word(line: &Line) -> Result<u32, Failure> {
    if line.value.get(..2).map_or(false, |start| start.eq_ignore_ascii_case("st")) {
        let problem = |misread| line.problem(&format!("{} has {misread}", line.name));
        return assembly::word(&line.value).map_err(problem);
    }
    line.read(word_number, "a word of 32 bits, such as 0xA16F6000, or assembly text")
}

/// A number, or a word with a letter in it, as `starshackle decode` shows it.
fn word_number(text: &str) -> Option<u32> {
    let shown = |word: &u32| numbers::hexadecimal(*word).len() == text.len();
    match numbers::number(text) {
        Some(number) => u32::try_from(number).ok(),
        None => numbers::word(text).filter(shown),
    }
}

fn registers(lines: &[Line]) -> Result<Registers, Failure> {
    let given = number(lines, Subject::Vb)?;
    // A length that has no room here is none of the model's either.
    let vb = usize::try_from(given.unwrap_or(0)).unwrap_or(usize::MAX);
    let flags = find(lines, Subject::Flags).map_or(Ok(Flags::default()), flags)?;
    let edition = find(lines, Subject::Edition).map_or(Ok(Edition::default()), edition)?;
    let mut registers = Registers::zero(vb, flags, edition);
    registers.gives_vb = given.is_some();
    for line in lines {
        if let Subject::Register(register) = line.name.subject {
            registers.put(register, line)?;
        }
    }
    Ok(registers)
}

/// Puts a line's value into one of a buffer's registers.
fn put(
    buffer: &mut [u8],
    number: usize,
    registers: usize,
    line: &Line,
    reader: fn(&Line, usize) -> Result<Vec<u8>, Failure>,
) -> Result<(), Failure> {
    let length = buffer.len() / registers;
    if length > 0 {
        buffer[number * length..][..length].copy_from_slice(&reader(line, length)?);
    }
    Ok(())
}

fn flags(line: &Line) -> Result<Flags, Failure> {
    let mut flags = Flags::default();
    for name in line.value.split_whitespace() {
        let flag = FLAGS.iter().find(|(other, _)| other.eq_ignore_ascii_case(name));
        let names = || crate::arguments::one_of(FLAGS.iter().map(|(name, _)| *name));
        let expected = || format!("names with spaces between them: {}", names());
        flags |= flag.ok_or_else(|| line.unexpected(&is(name), &expected()))?.1;
    }
    Ok(flags)
}

/// The editions, each with a name.
const EDITIONS: [Edition; 2] = [Edition::Early, Edition::Late];

pub fn edition_name(edition: Edition) -> &'static str {
    match edition {
        Edition::Early => "early",
        Edition::Late => "late",
    }
}

fn edition(line: &Line) -> Result<Edition, Failure> {
    let named = |text: &str| {
        EDITIONS.into_iter().find(|edition| edition_name(*edition).eq_ignore_ascii_case(text))
    };
    line.read(named, "early or late")
}

/// The folder from which a file names others: its own, or the current one for standard input.
fn folder(path: &OsStr) -> &Path {
    match Path::new(path).parent() {
        Some(folder) if path != input::STANDARD => folder,
        _ => Path::new(""),
    }
}

/// The window's length and bytes.
fn window(lines: &[Line], folder: &Path) -> Result<(u64, Vec<u8>), Failure> {
    let length = number(lines, Subject::Length)?;
    match find(lines, Subject::Memory) {
        Some(line) => {
            let memory = match line.value.strip_prefix('@') {
                Some(name) => contents::memory(line, folder, name, length)?,
                None => values::memory(line, length, LONGEST)?,
            };
            Ok((length.unwrap_or(memory.len() as u64), memory))
        }
        None => {
            let length = length.unwrap_or(0);
            Ok((length, vec![0; length.min(LONGEST) as usize]))
        }
    }
}
