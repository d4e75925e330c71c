//! Verdicts as answers show them.

use crate::json::Json;
use crate::notes::Notes;
use crate::numbers;
use starshackle::{Refusal, Stored, Verdict};

/// What text shows of a call: its counts where it is done, or the refusal with rule and detail, and
/// notes about its case.
pub fn explained<T>(
    outcome: &Result<T, Refusal>,
    counts: impl Fn(&T) -> String,
    notes: &Notes,
) -> String {
    match outcome {
        Ok(done) => format!("{}\n{}", Verdict::Done, counts(done)),
        Err(refusal) => {
            let detail = detail_text(refusal).unwrap_or_default();
            let (first, notes) = (first_line(refusal, notes), notes.text());
            format!("{first}{detail}  nothing was written\n{notes}")
        }
    }
}

/// The verdict with its rule, unless that has several cases and notes say which it is.
pub fn first_line(refusal: &Refusal, notes: &Notes) -> String {
    let verdict = refusal.verdict();
    match refusal {
        Refusal::Length
        | Refusal::Window
        | Refusal::Undefined
        | Refusal::Illegal
        | Refusal::Stack
            if !notes.is_empty() =>
        {
            format!("{verdict}\n")
        }
        _ => format!("{verdict}: {}\n", verdict.cause()),
    }
}

/// The line about a refusal's detail.
fn detail_text(refusal: &Refusal) -> Option<String> {
    let (what, number, address) = detail(refusal)?;
    let address = numbers::address(address);
    Some(match refusal {
        Refusal::Fault { .. } => {
            format!("  {what} {number}, first byte outside the window at {address}\n")
        }
        Refusal::Overlap { .. } => {
            let lowest = "the lowest that shares a byte with a lower one";
            format!("  {what} {number} at {address}, {lowest}\n")
        }
        _ => format!("  {what} {number} at {address}\n"),
    })
}

/// The counts of a store.
pub fn counts(stored: &Stored) -> String {
    let Stored { elements, bytes, steps, .. } = stored;
    format!("  active elements {elements}, bytes moved {bytes}, steps {steps}\n")
}

/// What a refusal is about, its number, and its address.
fn detail(refusal: &Refusal) -> Option<(&'static str, u64, u64)> {
    match *refusal {
        Refusal::Fault { element, address } => Some(("element", element, address)),
        Refusal::Overlap { element, address } => Some(("element", element, address)),
        Refusal::Outside { run, address } => Some(("run", run, address)),
        _ => None,
    }
}

/// The detail in JSON.
pub fn detail_json<T>(outcome: &Result<T, Refusal>) -> Json {
    let detail = outcome.as_ref().err().and_then(detail);
    let members = |(what, number, address): (&'static str, u64, u64)| {
        Json::Object(vec![(what, number.into()), ("address", numbers::address(address).into())])
    };
    detail.map(members).into()
}

/// The detail and the counts of a store in JSON.
pub fn store_members(outcome: &Result<Stored, Refusal>) -> [(&'static str, Json); 4] {
    let count = |count: fn(&Stored) -> u64| outcome.as_ref().ok().map(count).into();
    [
        ("detail", detail_json(outcome)),
        ("active_elements", count(|stored| stored.elements)),
        ("bytes_moved", count(|stored| stored.bytes)),
        ("steps", count(|stored| stored.steps)),
    ]
}

/// The version of the answers in JSON, which `docs/JSON.md` describes. It changes where a key goes or
/// changes its meaning.
const VERSION: u64 = 1;

/// The member with which every object of an answer starts.
pub fn version() -> (&'static str, Json) {
    ("version", VERSION.into())
}

/// The members with which each answer in JSON starts.
pub fn members(verdict: Verdict) -> [(&'static str, Json); 3] {
    [version(), ("verdict", verdict.number().into()), ("verdict_name", verdict.name().into())]
}

#[cfg(test)]
mod tests {
    use super::*;

    /// Refusals that no file brings too: 2, since registers come with their length, and 8, since
    /// the buffer has room for every patch.
    #[test]
    fn refusals() {
        let shown =
            |refusal: Refusal| explained(&Err(refusal), |()| String::new(), &Notes::default());
        let registers = "registers (verdict 2): the Z or P buffer has another size\n";
        assert_eq!(shown(Refusal::Registers), format!("{registers}  nothing was written\n"));
        let no_room =
            "no room (verdict 8): the buffer is shorter than the patch, or the list too short\n";
        assert_eq!(shown(Refusal::NoRoom), format!("{no_room}  nothing was written\n"));
        let fault = shown(Refusal::Fault { element: 2, address: 0x1005 });
        let byte = "\n  element 2, first byte outside the window at 0x0000000000001005\n";
        assert!(fault.ends_with(&format!("{byte}  nothing was written\n")));
        let overlap = shown(Refusal::Overlap { element: 2, address: 0x1005 });
        let lowest =
            "\n  element 2 at 0x0000000000001005, the lowest that shares a byte with a lower one\n";
        assert!(overlap.ends_with(&format!("{lowest}  nothing was written\n")));
        let outside = shown(Refusal::Outside { run: 2, address: 0x1005 });
        assert!(outside.ends_with("\n  run 2 at 0x0000000000001005\n  nothing was written\n"));
        assert_eq!(detail_json(&Err::<(), _>(Refusal::NoRoom)).to_string(), "null");
    }
}
