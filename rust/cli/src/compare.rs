//! `starshackle compare`: where two patches differ.

use crate::arguments::{Arguments, Usage};
use crate::command::{Command, Failure, Report, FAILED};
use crate::input::STANDARD;
use crate::json::Json;
use crate::{input, numbers, show, verdicts};
use starshackle::{compare, judge, Difference, NoPatch, NotAPatch, Verdict};

pub const COMMAND: Command = Command {
    name: "compare",
    summary: "shows where two patches differ",
    help: "\
usage: starshackle compare [--json] FIRST SECOND

Shows each address where two patches differ, and which byte each of them writes there; -- is no
byte. Addresses that follow one another are a stretch, which has a line for each 8 of them. Nothing
differs exactly when the files are equal.
Of a file that is no patch it shows which of the two it is, the first when neither is one, and where
it stops being one, as `show` does.
Addresses, bytes and the file that is no patch are the proved model's answer, and so is where that
file stops being one. Stretches are only how the answer is shown.
A - for FIRST or for SECOND is standard input.

With --json the answer is an object. Its keys: version, verdict, verdict_name, no_patch (first or
second: the file that is none), offset (where that file stops being one), differences (each with address, first
and second, which are null where no byte is written). They are null where there is nothing to say.

Exit status: 0 nothing differs, 1 something differs, 2 a file that is no patch, bad usage or an
unreadable file. So it is with `cmp` and `diff`; other commands have 1 for a refusal.
",
    valued: &[],
    switches: &[],
    run,
};

/// The exit status when something differs.
const DIFFERS: u8 = 1;

/// How many addresses a line has.
const LINE: usize = 8;

/// How the two are called.
const NAMES: [&str; 2] = ["first", "second"];

/// Which of two files is no patch, 0 or 1, and where it stops being one.
struct Refused {
    which: usize,
    problem: NoPatch,
}

fn run(arguments: &Arguments) -> Result<Report, Failure> {
    let [first, second] = arguments.two_operands("two files with patches")?;
    if first == STANDARD && second == STANDARD {
        return Err(Usage("both FIRST and SECOND are -; expected a file".to_string()).into());
    }
    let patches = [input::bytes(first, show::EXPECTED)?, input::bytes(second, show::EXPECTED)?];
    let compared = compare(&patches[0], &patches[1]).map_err(|which| {
        let which = usize::from(which == NotAPatch::Second);
        let problem = judge(&patches[which]).expect_err("comparing and judging agree");
        Refused { which, problem }
    });
    let text = match &compared {
        _ if arguments.json => json(&compared),
        Ok(differences) => text(differences),
        Err(Refused { which, problem }) => {
            let (verdict, name, file) = (Verdict::BadPatch, NAMES[*which], [first, second][*which]);
            let wrong = show::wrong(&patches[*which], problem.runs, problem.offset);
            format!(
                "{verdict}: {}: the {name} file, {}\n{wrong}",
                verdict.cause(),
                input::name(file)
            )
        }
    };
    let status = compared.map_or(FAILED, |found| if found.is_empty() { 0 } else { DIFFERS });
    Ok(Report { status, ..Report::new(text, false) })
}

/// The differences by stretches of addresses that follow one another.
fn stretches(differences: &[Difference]) -> Vec<&[Difference]> {
    let mut stretches = Vec::new();
    let mut from = 0;
    for index in 1..=differences.len() {
        let next = differences.get(index).map(|one| one.address);
        if next != differences[index - 1].address.checked_add(1) || next.is_none() {
            stretches.push(&differences[from..index]);
            from = index;
        }
    }
    stretches
}

fn text(differences: &[Difference]) -> String {
    let stretches = stretches(differences);
    let mut text = format!("{}\n{}", Verdict::Done, summary(differences, stretches.len()));
    if !differences.is_empty() {
        text += &format!("\n{:18}  length  {:23}  {}\n", "address", NAMES[0], NAMES[1]);
    }
    for stretch in stretches {
        let length = stretch.len().to_string();
        let lengths = std::iter::once(&length[..]).chain(std::iter::repeat(""));
        text.extend(stretch.chunks(LINE).zip(lengths).map(|(part, length)| line(part, length)));
    }
    text
}

fn summary(differences: &[Difference], stretches: usize) -> String {
    let count = |written: [bool; 2]| {
        let is_so = |one: &&Difference| [one.first.is_some(), one.second.is_some()] == written;
        differences.iter().filter(is_so).count()
    };
    let (first, second, both) = (count([true, false]), count([false, true]), count([true, true]));
    match differences.len() {
        0 => "  nothing differs\n".to_string(),
        all => format!(
            "  addresses that differ {all}, stretches {stretches}\n  \
               written by the first alone {first}, by the second alone {second}, by both {both}\n"
        ),
    }
}

/// A line of the table; a stretch's first has its length.
fn line(part: &[Difference], length: &str) -> String {
    let side = |of: fn(&Difference) -> Option<u8>| {
        let byte =
            |one: &Difference| of(one).map_or("--".to_string(), |byte| format!("{byte:02X}"));
        part.iter().map(byte).collect::<Vec<String>>().join(" ")
    };
    let address = numbers::address(part[0].address);
    let (first, second) = (side(|one| one.first), side(|one| one.second));
    format!("{address}  {length:>6}  {first:23}  {second}\n")
}

fn json(compared: &Result<Vec<Difference>, Refused>) -> String {
    let verdict = if compared.is_ok() { Verdict::Done } else { Verdict::BadPatch };
    let mut members = Vec::from(verdicts::members(verdict));
    let refused = compared.as_ref().err();
    let list = |found: &Vec<Difference>| Json::List(found.iter().map(member).collect());
    members.extend([
        ("no_patch", refused.map(|refused| NAMES[refused.which]).into()),
        ("offset", refused.map(|refused| refused.problem.offset).into()),
        ("differences", compared.as_ref().ok().map(list).into()),
    ]);
    format!("{}\n", Json::Object(members))
}

fn member(difference: &Difference) -> Json {
    let byte = |byte: Option<u8>| byte.map(|byte| numbers::bytes(&[byte], "")).into();
    Json::Object(vec![
        ("address", numbers::address(difference.address).into()),
        ("first", byte(difference.first)),
        ("second", byte(difference.second)),
    ])
}

#[cfg(test)]
mod tests {
    use super::*;

    fn at(address: u64) -> Difference {
        Difference { address, first: Some(0), second: None }
    }

    /// The top isn't followed by 0.
    #[test]
    fn addresses_in_stretches() {
        let lengths = |addresses: &[u64]| {
            let differences: Vec<Difference> = addresses.iter().copied().map(at).collect();
            stretches(&differences).into_iter().map(<[Difference]>::len).collect::<Vec<usize>>()
        };
        assert_eq!(lengths(&[]), []);
        assert_eq!(lengths(&[7]), [1]);
        assert_eq!(lengths(&[0, 1, 2, 4, 6, 7]), [3, 1, 2]);
        assert_eq!(lengths(&[0, u64::MAX - 1, u64::MAX]), [1, 2]);
        assert_eq!(lengths(&[u64::MAX]), [1]);
    }
}
