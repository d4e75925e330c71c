//! Calls about many stores, whose answers go out one by one.

/// The part of a subcommand's help about many files, a macro because only those are joined with
/// literals.
macro_rules! many_help {
    () => {
        "
Of many files each is answered under a line with its name, with --json by an object in a list, which
has the name as file. One that can't be read or isn't a store is told of, with --json by an object with
error in the place of an answer; the others are answered all the same. The exit status is the worst.
"
    };
}

/// The part of a subcommand's help about lines of JSON.
macro_rules! lines_help {
    () => {
        "
With --jsonl each line of FILE, or of standard input, is a JSON object that describes a store. Its
keys are the names of the lines above, its values strings with what stands behind the =, numbers, or
lists of these: {\"word\": \"E4428001\", \"vb\": 16, \"flags\": [\"sve\"], \"x0\": \"0x1000\", \"length\": 8}.
Each line of the answer is the object of --json for the line of its number; for one that describes no
store it has the line's number and error. A line has 1 MiB at most.
"
    };
}

mod files;
mod folder;
mod lines;
mod object;
mod progress;
mod sink;
mod stores;

pub use files::files;
pub use folder::Folder;
pub use lines::Lines;
pub use progress::Progress;
pub use sink::{Sink, Stop};
pub use stores::{stores, JSONL};
