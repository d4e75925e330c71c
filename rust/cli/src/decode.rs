//! `starshackle decode`: what words are.

mod listed;

use crate::arguments::{unexpected, Arguments, Usage};
use crate::command::{Command, Failure, Report};
use crate::input::STANDARD;
use crate::json::Json;
use crate::known::{self, Known};
use crate::swapped::Swapped;
use crate::{input, numbers, quote, verdicts};
use starshackle::{Refusal, Verdict};

/// The option for words that are given as bytes.
const BYTES: &str = "--bytes";
/// The option for words in the lines of a file.
const FILE: &str = "--file";

/// What is expected, for messages.
const EXPECTED: &str = "a word in eight hexadecimal digits, such as A16F6000, \
                        or --bytes and its bytes in the order of memory, such as 00 60 6F A1";
const EXPECTED_BYTES: &str =
    "bytes of two hexadecimal digits, four for each word, such as 00 60 6F A1";

pub const COMMAND: Command = Command {
    name: "decode",
    summary: "shows which stores instruction words are",
    help: "\
usage: starshackle decode [--json] [--bytes] WORD... | --file FILE

Shows each word's class and fields, or that the model knows no such store: undefined (verdict 4).
A word is eight hexadecimal digits, such as A16F6000, 0xA16F6000 or A16F6000h.
With --bytes the words are given as bytes in the order of memory, as disassemblers print them: two
digits each, four for each word, with or without spaces between them. A16F6000 is 00 60 6F A1.
A - stands for the words in standard input, with spaces between them.
With --file the words, or bytes, are in the lines of FILE, or with a - of standard input, with spaces
between them; # starts a comment. Each is answered before the next lines are read. At a line with
something else that ends with a message; what stands before it is answered.
Class and fields are the proved model's answer. The assembly text is not proved, nor is the note
that a word which is undefined is a store with its bytes in the other order.

With --json the answer is a list with an object for each word. Its keys: version, verdict,
verdict_name, word, class, class_name, fields, counter (the predicate register of a counter),
assembly, swapped (the note: word, class, class_name). They are null where there is nothing to
say. The fields have the names that `starshackle encode` takes.

Exit status: 0 all words decode, 1 one is undefined, 2 bad usage, or a file that can't be read.
",
    valued: &[FILE],
    switches: &[BYTES],
    run,
};

fn run(arguments: &Arguments) -> Result<Report, Failure> {
    match (arguments.given(FILE), &arguments.operands[..]) {
        (None, _) => operands(arguments),
        (Some(file), []) => listed::decode(arguments, file),
        (Some(_), [word, ..]) => {
            let word = quote::file(word);
            Err(Usage(format!("'{word}' beside {FILE}; expected one of them")).into())
        }
    }
}

/// The answers to the words in the operands.
fn operands(arguments: &Arguments) -> Result<Report, Failure> {
    let by_bytes = arguments.has(BYTES);
    let words = if by_bytes { of_bytes } else { words }(&texts(arguments)?)?;
    let answers: Vec<Answer> = words.into_iter().map(Answer::of).collect();
    let refused = answers.iter().any(|answer| answer.outcome.is_err());
    let text = if arguments.json {
        format!("{}\n", Json::List(answers.iter().map(Answer::json).collect()))
    } else {
        answers.iter().map(|answer| answer.text(by_bytes)).collect()
    };
    Ok(Report::new(text, refused))
}

/// The operands, with what stands in standard input in place of a minus.
fn texts(arguments: &Arguments) -> Result<Vec<String>, Failure> {
    let mut texts = Vec::new();
    for text in arguments.texts()? {
        if text == STANDARD {
            let text = input::text(text, "words with spaces between them")?;
            texts.extend(text.split_whitespace().map(String::from));
        } else {
            texts.push(text.to_string());
        }
    }
    Ok(texts)
}

fn words(operands: &[String]) -> Result<Vec<u32>, Usage> {
    if operands.is_empty() {
        return Err(Usage(format!("no word; expected {EXPECTED}")));
    }
    let word = |text: &String| numbers::word(text).ok_or_else(|| unexpected(text, EXPECTED));
    operands.iter().map(word).collect()
}

fn of_bytes(operands: &[String]) -> Result<Vec<u32>, Usage> {
    let mut bytes = Vec::new();
    for operand in operands {
        for text in operand.split_whitespace() {
            bytes.extend(numbers::pairs(text).ok_or_else(|| unexpected(text, EXPECTED_BYTES))?);
        }
    }
    match bytes.len() {
        0 => Err(Usage(format!("no byte; expected {EXPECTED_BYTES}"))),
        1 => Err(Usage(format!("1 byte; expected {EXPECTED_BYTES}"))),
        count if count % 4 > 0 => Err(Usage(format!("{count} bytes; expected {EXPECTED_BYTES}"))),
        _ => Ok(bytes.chunks(4).map(little_endian).collect()),
    }
}

fn little_endian(bytes: &[u8]) -> u32 {
    bytes.iter().rev().fold(0, |word, byte| word << 8 | u32::from(*byte))
}

/// What the model says of a word.
struct Answer {
    word: u32,
    outcome: Result<Known, Refusal>,
    /// None where the word is a store.
    swapped: Option<Swapped>,
}

impl Answer {
    fn of(word: u32) -> Answer {
        let outcome = Known::decode(word);
        let swapped = Swapped::of(word).filter(|_| outcome.is_err());
        Answer { word, outcome, swapped }
    }

    fn text(&self, by_bytes: bool) -> String {
        let word = numbers::hexadecimal(self.word);
        match &self.outcome {
            Ok(known) => format!("{word}: {}", known.text()),
            Err(refusal) => format!("{word}: {}\n{}", refusal.verdict(), self.note(by_bytes)),
        }
    }

    fn note(&self, by_bytes: bool) -> String {
        let way = if by_bytes {
            "without --bytes a word is taken as it stands"
        } else {
            "--bytes takes bytes in the order of memory"
        };
        let line = |swapped: &Swapped| format!("  note (not proved): {}; {way}\n", swapped.text());
        self.swapped.as_ref().map(line).unwrap_or_default()
    }

    fn json(&self) -> Json {
        let known = self.outcome.as_ref().ok();
        let mut members = Vec::from(verdicts::members(Verdict::of(&self.outcome)));
        members.push(("word", numbers::hexadecimal(self.word).into()));
        members.extend(known::members(known));
        members.push(("swapped", self.swapped.as_ref().map(Swapped::json).into()));
        Json::Object(members)
    }
}
