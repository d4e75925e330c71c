//! `starshackle encode`: the word of a store.

use crate::arguments::{one_of, pair, unexpected, Arguments, Usage};
use crate::classes::{Field, FIELDS};
use crate::command::{Command, Failure, Report};
use crate::json::Json;
use crate::notes::Notes;
use crate::numbers::hexadecimal;
use crate::quote::shown;
use crate::{fields, verdicts, wrong_fields};
use starshackle::{Refusal, Store, Verdict};

pub const COMMAND: Command = Command {
    name: "encode",
    summary: "shows which instruction word a store has",
    help: "\
usage: starshackle encode [--json] NAME=VALUE...

Shows the word of the store with these fields, or that there is none: fields (verdict 11). The notes
that name each field which is wrong are not proved.

  class=N              the class by its number, 1 to 36
  zm=N or rm=N         the vector or the general register of the offset, 0 to 31
  extension=E          uxtw or sxtw in classes 1, 2, 5, 6, 13, 14, 17 to 20, 23 and 24, none in the
                       others
  pg=N or pc=N         the predicate register, or the counter's register less 8, 0 to 7
  rn=N or zn=N         the general or the vector register of the base, 0 to 31
  zt=N or first=N      the register that is stored, 0 to 31, or the first of a strided store:
                       0 to 7 and 16 to 23 of two registers, 0 to 3 and 16 to 19 of four
  multiple=N           the signed immediate, in vectors: -16, -14 .. 14 of two registers,
                       -32, -28 .. 28 of four

Numbers are decimal or 0x and hexadecimal. A field that isn't given is 0, and extension is none.
Of two names in a line, only the one that the class has may be given.
`starshackle decode` shows which fields a class has.

With --json the answer is an object. Its keys: version, verdict, verdict_name, word, cause (the
notes). They are null where there is nothing to say.

Exit status: 0 there is a word, 1 there is none, 2 bad usage.
",
    valued: &[],
    switches: &[],
    run,
};

fn run(arguments: &Arguments) -> Result<Report, Failure> {
    let (store, given) = store(&arguments.texts()?)?;
    let outcome = starshackle::encode(store);
    let cause = if outcome.is_ok() { vec![] } else { wrong_fields::notes(&store, &given) };
    let answer = if arguments.json { json } else { text }(&outcome, &Notes(cause));
    Ok(Report::new(answer, outcome.is_err()))
}

fn text(outcome: &Result<u32, Refusal>, cause: &Notes) -> String {
    match outcome {
        Ok(word) => hexadecimal(*word) + "\n",
        Err(refusal) => verdicts::first_line(refusal, cause) + &cause.text(),
    }
}

fn json(outcome: &Result<u32, Refusal>, cause: &Notes) -> String {
    let mut members = Vec::from(verdicts::members(Verdict::of(outcome)));
    members.push(("word", outcome.ok().map(hexadecimal).into()));
    members.push(("cause", cause.json()));
    format!("{}\n", Json::Object(members))
}

/// The store, and the fields that are given.
fn store(operands: &[&str]) -> Result<(Store, Vec<Field>), Usage> {
    if operands.is_empty() {
        return Err(Usage("no field; expected NAME=VALUE".to_string()));
    }
    let (mut store, mut given) = (Store::default(), Vec::new());
    for operand in operands {
        let (name, value) = pair(operand)?;
        let field = fields::named(name).ok_or_else(|| unknown(name))?;
        if let Some(other) = given.iter().find(|other| field.shares(other)) {
            return Err(fields::repetition(other, field));
        }
        field.entry.put(&mut store, value).map_err(|expected| unexpected(operand, expected))?;
        given.push(*field);
    }
    given.iter().try_for_each(|field| fields::of_class(store.class, field))?;
    Ok((store, given))
}

fn unknown(name: &str) -> Usage {
    let expected = one_of(FIELDS.iter().map(|field| field.name));
    Usage(format!("unknown name {}; expected {expected}", shown(name)))
}
