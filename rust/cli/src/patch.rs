//! `starshackle patch`: the patch of a store.

use crate::arguments::{Arguments, Usage};
use crate::batch::{self, Folder, JSONL};
use crate::command::{Command, Failure, One, Report, Said};
use crate::json::Members;
use crate::length::Length;
use crate::missing::{Missing, REQUIRE};
use crate::output::{self, Output};
use crate::store::{self, Described};
use crate::{cause, numbers, verdicts};
use starshackle::{Refusal, Stored, Verdict, Window, LARGEST_STORE_PATCH};
use std::ffi::OsStr;

pub const COMMAND: Command = Command {
    name: "patch",
    summary: "makes the patch of the store that a file describes",
    help: concat!(
        "\
usage: starshackle patch [--json | --jsonl] [--require-registers] FILE... -o OUT

Writes the patch of a store to OUT: applying it leaves what running the store leaves, whatever the
window's bytes are. Shows the verdict with its detail, the counts that `run` shows, and the patch's
length.
All this is the proved model's answer. The notes about registers that aren't given and about the case
of its rule that a refusal is (verdicts 1, 3, 4, 5, 6 and 11) are not proved.
Where the model refuses, OUT is left as it was. OUT may not be FILE.
For many files OUT is a folder that is there, as it is for one where it ends in /. The patch of
NAME.store is OUT/NAME.patch, that of another NAME is OUT/NAME.patch; each is written whole or not at
all, and only when its answer is out.

",
        output_help!(),
        store_help!(),
        "
With --json the answer is an object. Its keys: version, verdict, verdict_name, cause (the notes
about a refusal's case), length_rule (the one about vb: vb, given, edition, streaming, allowed),
not_given (the note's registers), detail (of a fault: element, and address, which is that of its
first byte outside the window, modulo 2^64; of an overlap: element, and its first address),
active_elements, bytes_moved, steps, length (the patch's), patch (its bytes in hexadecimal). They are
null where there is nothing to say.
",
        many_help!(),
        lines_help!(),
        "The object has the patch, and no -o is given.
",
        "
Exit status: 0 done, 1 refused by the model, 2 bad usage, a file that can't be read or written, or a
register that is required and not given.
"
    ),
    valued: &["-o"],
    switches: &[JSONL, REQUIRE],
    run,
};

fn run(arguments: &Arguments) -> Result<Report, Failure> {
    let (files, out) = (&arguments.operands, arguments.value("-o", "the file to write"));
    if arguments.has(JSONL) {
        return match out {
            Ok(_) => Err(Usage(format!("-o beside {JSONL}; expected one of them")).into()),
            Err(_) => batch::stores(arguments, |described| {
                let answer = Answer::of(described);
                answer.missing.problem(arguments, "key")?;
                Ok((answer.members(), answer.outcome.is_err()))
            }),
        };
    }
    if files.len() > 1 {
        let folder = Folder::of(out?, files)?;
        return batch::files(arguments, COMMAND.name, |file| {
            one(arguments, file, folder.place(file)?.as_os_str())
        });
    }
    let (file, out) = (arguments.operand(store::EXPECTED)?, out?);
    if Folder::is_meant(out) {
        let place = Folder::of(out, files)?.place(file)?;
        return Ok(one(arguments, file, place.as_os_str())?.report());
    }
    output::differs(out, file)?;
    let report = one(arguments, file, out)?.report();
    Ok(Report { aside: output::is_standard(out), ..report })
}

/// The answer to one file, with its patch for an output.
fn one(arguments: &Arguments, file: &OsStr, out: &OsStr) -> Result<One, Failure> {
    let answer = Answer::of(store::read(file)?);
    answer.missing.check(arguments, file)?;
    let output = answer.patch().map(|patch| Output::prepare(out, patch)).transpose()?;
    let said = match arguments.json {
        true => Said::Members(answer.members()),
        false => Said::Text(answer.text()),
    };
    Ok(One { said, refused: answer.outcome.is_err(), output })
}

/// A store and its patch.
struct Answer {
    described: Described,
    outcome: Result<Stored, Refusal>,
    missing: Missing,
    buffer: [u8; LARGEST_STORE_PATCH],
}

impl Answer {
    /// Makes the patch. The store runs over a scratch window: what it holds plays no part.
    fn of(described: Described) -> Answer {
        let Described { word, ref registers, base, ref memory, .. } = described;
        let window = Window { base, memory: &mut vec![0; memory.len()] };
        let mut buffer = [0; LARGEST_STORE_PATCH];
        let store = |word| starshackle::store(&registers.machine(), window, word, &mut buffer);
        let outcome = word.and_then(store);
        let missing = Missing::of(word, registers, &outcome);
        Answer { described, outcome, missing, buffer }
    }

    fn patch(&self) -> Option<&[u8]> {
        self.outcome.as_ref().ok().map(|stored| &self.buffer[..stored.length])
    }

    fn text(&self) -> String {
        let counts = |stored: &Stored| {
            format!("{}  length of the patch {}\n", verdicts::counts(stored), stored.length)
        };
        let cause = cause::of(&self.described, &self.outcome);
        verdicts::explained(&self.outcome, counts, &cause) + &self.missing.text()
    }

    fn members(&self) -> Members {
        let Answer { described, outcome, missing, .. } = self;
        let (registers, patch) = (&described.registers, self.patch());
        let rule = Length::of(&registers.machine(), registers.gives_vb(), outcome);
        let mut members = Vec::from(verdicts::members(Verdict::of(outcome)));
        members.push(("cause", cause::of(described, outcome).json()));
        members.push(("length_rule", rule.map(|rule| rule.json()).into()));
        members.push(("not_given", missing.json()));
        members.extend(verdicts::store_members(outcome));
        members.extend([
            ("length", patch.map(|patch| patch.len() as u64).into()),
            ("patch", patch.map(|patch| numbers::bytes(patch, "")).into()),
        ]);
        members
    }
}
