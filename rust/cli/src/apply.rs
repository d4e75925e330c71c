//! `starshackle apply`: what a patch does to memory.

use crate::arguments::{unexpected, utf_8, Arguments, Usage};
use crate::command::{Command, Failure, Report};
use crate::input::STANDARD;
use crate::json::Json;
use crate::notes::Notes;
use crate::output::{self, Output};
use crate::{cause, input, numbers, show, verdicts};
use starshackle::patch::runs;
use starshackle::{apply, judge, Applied, NoPatch, Refusal, Verdict, Window};

pub const COMMAND: Command = Command {
    name: "apply",
    summary: "applies a patch to the bytes in a file",
    help: concat!(
        "\
usage: starshackle apply [--json] PATCH --base ADDRESS --memory FILE -o OUT

Applies a patch to a window, whose first byte has the address and whose bytes are those of FILE,
and writes the window's bytes to OUT, which may be FILE but not PATCH. Shows the verdict with its
detail and how many runs and payload bytes the patch has, or where PATCH stops being one, as `show`
does. All this is the proved model's answer. The notes about the window (verdicts 3 and 10) are not
proved.
Where the model refuses, OUT is left as it was.

",
        output_help!(),
        "\
A - for PATCH or for FILE is standard input.
The address is decimal or 0x and hexadecimal.

With --json the answer is an object. Its keys: version, verdict, verdict_name, cause (the notes
about a refusal's case), detail (run and address of the lowest run outside the window), runs,
payload_bytes, offset (where what follows can't be accepted). They are null where there is nothing
to say.

Exit status: 0 done, 1 refused by the model, 2 bad usage, or a file that can't be read or written.
"
    ),
    valued: &["--base", "--memory", "-o"],
    switches: &[],
    run,
};

fn run(arguments: &Arguments) -> Result<Report, Failure> {
    let file = arguments.operand(show::EXPECTED)?;
    let (address, bytes) = ("the address of the first byte", "a file with the window's bytes");
    let base = utf_8(arguments.value("--base", address)?)?;
    let base = numbers::number(base).ok_or_else(|| {
        unexpected(base, "an address of 64 bits behind --base, decimal or 0x hexadecimal")
    })?;
    let memory = arguments.value("--memory", bytes)?;
    let out = arguments.value("-o", "the file to write")?;
    if file == STANDARD && memory == STANDARD {
        return Err(Usage("both PATCH and --memory are -; expected a file".to_string()).into());
    }
    output::differs(out, file)?;
    let patch = input::bytes(file, show::EXPECTED)?;
    let mut memory = input::bytes(memory, bytes)?;
    let applied = apply(Window { base, memory: &mut memory }, &patch);
    let window = (base, memory.len() as u64);
    let text = if arguments.json {
        json(&applied, &patch, window)
    } else {
        text(&applied, &patch, window)
    };
    let output = applied.is_ok().then(|| Output::prepare(out, &memory)).transpose()?;
    let aside = output::is_standard(out);
    Ok(Report { output, aside, ..Report::new(text, applied.is_err()) })
}

/// Notes about the case that a refusal is. The window has an address and a length.
fn cause(applied: &Result<Applied, Refusal>, patch: &[u8], window: (u64, u64)) -> Notes {
    let (base, length) = window;
    Notes(match *applied {
        Err(Refusal::Window) => cause::window(base, length),
        Err(Refusal::Outside { run, .. }) => {
            let run_range = runs(patch).nth(run as usize).map(|run| range(run.address, run.bytes));
            let run_range = run_range.unwrap_or_default();
            vec![format!("run {run} has {run_range}, the window {}", window_range(base, length))]
        }
        _ => vec![],
    })
}

fn range(first: u64, bytes: &[u8]) -> String {
    window_range(first, bytes.len() as u64)
}

/// The addresses of so many bytes, of which none passes the top.
fn window_range(first: u64, length: u64) -> String {
    match length.checked_sub(1) {
        Some(more) => {
            let last = numbers::address(first.wrapping_add(more));
            format!("{} to {last}", numbers::address(first))
        }
        None => "no byte".to_string(),
    }
}

fn text(applied: &Result<Applied, Refusal>, patch: &[u8], window: (u64, u64)) -> String {
    match (applied, judge(patch)) {
        (Err(refusal @ Refusal::BadPatch), Err(NoPatch { runs, offset })) => {
            let first = verdicts::first_line(refusal, &Notes::default());
            format!("{first}{}  nothing was written\n", show::wrong(patch, runs, offset))
        }
        _ => {
            let counts = |applied: &Applied| show::counts(applied.runs, applied.bytes);
            verdicts::explained(applied, counts, &cause(applied, patch, window))
        }
    }
}

fn json(applied: &Result<Applied, Refusal>, patch: &[u8], window: (u64, u64)) -> String {
    let counts = applied.ok();
    let is_bad = *applied == Err(Refusal::BadPatch);
    let offset = judge(patch).err().filter(|_| is_bad).map(|problem| problem.offset);
    let mut members = Vec::from(verdicts::members(Verdict::of(applied)));
    members.extend([
        ("cause", cause(applied, patch, window).json()),
        ("detail", verdicts::detail_json(applied)),
        ("runs", counts.map(|counts| counts.runs).into()),
        ("payload_bytes", counts.map(|counts| counts.bytes).into()),
        ("offset", offset.into()),
    ]);
    format!("{}\n", Json::Object(members))
}
