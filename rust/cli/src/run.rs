//! `starshackle run`: what a store does.

mod answer;

use crate::arguments::{Arguments, Usage};
use crate::batch::{self, JSONL};
use crate::command::{Command, Failure, One, Report, Said};
use crate::look::{Look, ASCII, COLOR, CONTEXT, LANES, WIDTH};
use crate::missing::REQUIRE;
use crate::output::{self, Output};
use crate::views::{View, AS};
use crate::{input, store};
use answer::Answer;
use starshackle_streams::Stream;
use std::ffi::OsStr;

/// The option for a page in HTML.
const HTML: &str = "--html";

pub const COMMAND: Command = Command {
    name: "run",
    summary: "runs the store that a file describes and shows what it did",
    help: concat!(
        "\
usage: starshackle run [--json | --jsonl] [--require-registers] [--as TYPE] [--color WHEN] [--context N] [--width N] [--ascii] [--lanes] [--html OUT] FILE...

Shows the verdict with its detail and counts, the word's store, each element with its state,
address and bytes, and the window, with the bytes that active elements have written in brackets.
Of a long window only the lines with written bytes and their neighbours are shown.
The counts: active elements, bytes moved, and steps, which are the active elements that don't start
where the active one before them ends.
A fault (verdict 7) names the lowest active element with a byte outside the window, and the address,
modulo 2^64, of the first of its bytes that isn't in the window. That byte is shown in ( ), and so is
that of every other active element with a byte outside.
With the flag strict a store of which two active elements share a byte is refused (verdict 12). The
verdict names the lowest active element that shares one with a lower active element, and its first
address. The bytes that it shares with the lowest of these are shown in ( ), in both.
All this is the proved model's answer. The assembly text, the note about registers that aren't
given, the notes that say which case of its rule a refusal is (verdicts 1, 3, 4, 5, 6 and 11), the
notes that say how the counter of a strided store is read, and so why an element is active, and the
notes that say what is in ( ), are not proved, nor is which other elements fault, nor which element
wrote a byte.
A counter is the low 16 bits of its register. The lowest set one of its bits 0 to 3 is its element
size, 8 to 64 bits; without one nothing is active. The bits above that one, up to bit log2(4 VB),
which is 6 at VB 16 and 10 at VB 256, are the count: so many elements of that size, from the first
on, are active, or with bit 15 set all others. The bits from there up to bit 14 are ignored.
An element of the store is active where it starts with an active one of the counter's. So a counter
of a wider size than the store's elements leaves those between inactive, and their bytes unwritten.

--as TYPE shows each element's bytes as numbers too, lowest byte first, which is not proved either. TYPE
is u8 to u64, i8 to i64, f16, f32 or f64; the bytes that an element stores have to be a multiple of its
size. Such a number is read back as the same bytes.
--context N shows N lines of the window around each line with written bytes, and no others; --width N
has N bytes, 1 to 256, in a line; --ascii shows them as letters too; --lanes shows below each written
byte the element that wrote it last.
--color always gives the bytes of each element a colour, in its line and in the window, and never none;
auto, the default, does so on a terminal, unless the variable NO_COLOR is set.
--html OUT also writes the answer, be it a refusal, to OUT as a page in HTML, with the elements and the
window in the elements' colours. It is for one file; OUT may not be FILE.

",
        output_help!(),
        store_help!(),
        "
With --json the answer is an object. Its keys: version, verdict, verdict_name, word, class,
class_name, fields, counter, assembly (as in `starshackle decode`), cause (the notes about a
refusal's case), length_rule (the one about vb: vb, given, edition, streaming, allowed, which are the
lengths that the rule allows), not_given (the note's registers), counter_means (the notes about the
counter: register, value, element_size, store_element_size, every, which is 2 where every second
element of the store starts one of the counter's, count, inverted, highest_bit, ignored, which are
the bits that are set and ignored), detail (of a fault: element, and address, which is that of its
first byte outside the window, modulo 2^64; of an overlap: element, and its first address), faulting
(a note on a fault: all elements with a byte outside), shares_with (a note on an overlap: the lower
element), active_elements, bytes_moved, steps, elements (each with element, active, address, which is
that of its first byte, bytes), as (what --as shows: type, values, one for each element), written
(ranges, each with the element that wrote it last, address, length), window (address, length,
memory). They are null where there is nothing to say. What has \"proved\": false in it is not proved.
",
        many_help!(),
        lines_help!(),
        "
Exit status: 0 done, 1 refused by the model, 2 bad usage, an unreadable file, or a register that is
required and not given.
"
    ),
    valued: &[AS, COLOR, CONTEXT, WIDTH, HTML],
    switches: &[JSONL, REQUIRE, ASCII, LANES],
    run,
};

fn run(arguments: &Arguments) -> Result<Report, Failure> {
    // With the page in standard output the answer goes beside it.
    let aside = arguments.given(HTML).map_or(false, output::is_standard);
    let look = Look::of(arguments, if aside { Stream::Error } else { Stream::Output })?;
    let view = View::asked(arguments)?;
    let one = |file: &OsStr| one(arguments, file, view, &look);
    let several = arguments.operands.len() > 1 || arguments.has(JSONL);
    match &arguments.operands[..] {
        _ if several && arguments.given(HTML).is_some() => {
            Err(Usage(format!("{HTML} for many stores; expected one file")).into())
        }
        _ if arguments.has(JSONL) => batch::stores(arguments, |described| {
            let answer = Answer::of(described).viewed(view)?;
            answer.missing.problem(arguments, "key")?;
            Ok((answer.members(), answer.outcome.is_err()))
        }),
        [_, _, ..] => batch::files(arguments, COMMAND.name, one),
        _ => {
            let report = one(arguments.operand(store::EXPECTED)?)?.report();
            Ok(Report { aside, ..report })
        }
    }
}

fn one(
    arguments: &Arguments,
    file: &OsStr,
    view: Option<&'static View>,
    look: &Look,
) -> Result<One, Failure> {
    let page = arguments.given(HTML);
    page.map_or(Ok(()), |out| output::differs(out, file))?;
    let answer = Answer::of(store::read(file)?);
    answer.missing.check(arguments, file)?;
    let problem = |problem: String| Failure::of_file(&input::name(file), &problem);
    let answer = answer.viewed(view).map_err(problem)?;
    let said = match arguments.json {
        true => Said::Members(answer.members()),
        false => Said::Text(answer.text(look)),
    };
    let page = page.map(|out| Output::prepare(out, answer.page(&input::name(file)).as_bytes()));
    Ok(One { said, refused: answer.outcome.is_err(), output: page.transpose()? })
}
