//! `starshackle show`: what is in a patch.

use crate::arguments::Arguments;
use crate::command::{Command, Failure, Report};
use crate::json::Json;
use crate::{input, numbers, verdicts};
use starshackle::patch::{runs, Run};
use starshackle::{judge, Judged, NoPatch, Refusal, Verdict};

pub const COMMAND: Command = Command {
    name: "show",
    summary: "shows the runs of a patch, or where a file stops being one",
    help: "\
usage: starshackle show [--json] PATCH

Shows the runs of a patch: where each stands in the file, its address, length and bytes. Of a file
that is no patch it shows how many runs from the front are whole and acceptable, these runs, and
what stands behind them. Whether it is a patch, and where it stops being one, is the proved
model's answer. A - for PATCH is standard input.

A patch is a row of runs, then 50 45 and the number of runs in two bytes, and nothing behind it. A
run is 50 52, its address in eight bytes, its length in two, and its bytes. There are at most 512
runs and 1,024 bytes in them; a run has at least one; addresses ascend, with at least one unwritten
address between runs; no run passes the top of the address space. Numbers are little-endian.

With --json the answer is an object. Its keys: version, verdict, verdict_name, runs (each with run,
offset, address, length, bytes), payload_bytes (in all of them), offset (where what follows can't be
accepted, null for a patch).

Exit status: 0 a patch, 1 none, 2 bad usage or an unreadable file.
",
    valued: &[],
    switches: &[],
    run,
};

/// What the file is, for messages.
pub const EXPECTED: &str = "a file with a patch";

fn run(arguments: &Arguments) -> Result<Report, Failure> {
    let patch = input::bytes(arguments.operand(EXPECTED)?, EXPECTED)?;
    let judged = judge(&patch);
    let runs: Vec<Run> = runs(&patch).collect();
    let text = if arguments.json { json(&judged, &runs) } else { text(&patch, &judged, &runs) };
    Ok(Report::new(text, judged.is_err()))
}

/// What text shows of the runs' number and bytes.
pub fn counts(runs: u64, bytes: u64) -> String {
    format!("  runs {runs}, payload bytes {bytes}\n")
}

/// A line of the table, with a further one for each 16 bytes.
fn line(number: usize, run: &Run) -> String {
    let Run { offset, address, bytes } = run;
    let (address, length) = (numbers::address(*address), bytes.len());
    let start = format!("{number:>3}  {offset:>6}  {address}  {length:>6}");
    let lines: Vec<String> = bytes.chunks(16).map(|line| numbers::bytes(line, " ")).collect();
    let next = format!("\n{:width$}  ", "", width = start.len());
    format!("{start}  {}\n", lines.join(&next))
}

fn member((number, run): (usize, &Run)) -> Json {
    Json::Object(vec![
        ("run", (number as u64).into()),
        ("offset", (run.offset as u64).into()),
        ("address", numbers::address(run.address).into()),
        ("length", (run.bytes.len() as u64).into()),
        ("bytes", numbers::bytes(run.bytes, "").into()),
    ])
}

fn text(patch: &[u8], judged: &Result<Judged, NoPatch>, runs: &[Run]) -> String {
    let mut text = match *judged {
        Ok(Judged { runs, bytes }) => format!("{}\n{}", Verdict::Done, counts(runs, bytes)),
        Err(NoPatch { runs, offset }) => {
            let verdict = Verdict::BadPatch;
            format!("{verdict}: {}\n{}", verdict.cause(), wrong(patch, runs, offset))
        }
    };
    if !runs.is_empty() {
        text += "\nrun  offset  address             length  bytes\n";
    }
    text.extend(runs.iter().enumerate().map(|(number, run)| line(number, run)));
    text
}

/// What stands behind the acceptable runs, and what was expected there.
pub fn wrong(patch: &[u8], runs: u64, offset: u64) -> String {
    const MOST: usize = 16;
    let rest = patch.get(offset as usize..).unwrap_or_default();
    let found = match rest.len() {
        0 => "the end of the file".to_string(),
        1..=MOST => format!("{} and the end of the file", numbers::bytes(rest, " ")),
        _ => format!("{} ..", numbers::bytes(&rest[..MOST], " ")),
    };
    let number = numbers::bytes(&(runs as u16).to_le_bytes(), " ");
    format!(
        "  whole and acceptable runs from the front {runs}, up to offset {offset}\n  \
           found there: {found}\n  \
           expected: a run that keeps the rules, or 50 45 {number} and the end of the file\n"
    )
}

fn json(judged: &Result<Judged, NoPatch>, runs: &[Run]) -> String {
    let bytes: usize = runs.iter().map(|run| run.bytes.len()).sum();
    let verdict = Verdict::of(&judged.map_err(Refusal::from));
    let mut members = Vec::from(verdicts::members(verdict));
    members.extend([
        ("runs", Json::List(runs.iter().enumerate().map(member).collect())),
        ("payload_bytes", (bytes as u64).into()),
        ("offset", judged.err().map(|problem| problem.offset).into()),
    ]);
    format!("{}\n", Json::Object(members))
}
