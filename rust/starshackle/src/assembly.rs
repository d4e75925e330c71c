//! Arm's assembly text of a decoded store, spelled as LLVM's disassembler spells it, and the word of
//! such a text.
//!
//! This module is not proved. It serves messages, the comparison with LLVM, and those who have text.

mod reading;

use crate::{Extension, Store};
pub use reading::{word, Misread};

/// A line for each class, in order: its syntax as Arm's pages give it, in lower case.
const SYNTAX: &[&str] = &[
    "st1d { <Zt>.d }, <Pg>, [<Xn|SP>, <Zm>.d, <mod> #3]",
    "st1d { <Zt>.d }, <Pg>, [<Xn|SP>, <Zm>.d, <mod>]",
    "st1d { <Zt>.d }, <Pg>, [<Xn|SP>, <Zm>.d, lsl #3]",
    "st1d { <Zt>.d }, <Pg>, [<Xn|SP>, <Zm>.d]",
    "st1b { <Zt>.d }, <Pg>, [<Xn|SP>, <Zm>.d, <mod>]",
    "st1b { <Zt>.s }, <Pg>, [<Xn|SP>, <Zm>.s, <mod>]",
    "st1b { <Zt>.d }, <Pg>, [<Xn|SP>, <Zm>.d]",
    "st1d { <Zt1>.d, <Zt2>.d }, <PNg>, [<Xn|SP>, <Xm>, lsl #3]",
    "st1d { <Zt1>.d, <Zt2>.d, <Zt3>.d, <Zt4>.d }, <PNg>, [<Xn|SP>, <Xm>, lsl #3]",
    "st1d { <Zt1>.d, <Zt2>.d }, <PNg>, [<Xn|SP>{, #<imm>, mul vl}]",
    "st1d { <Zt1>.d, <Zt2>.d, <Zt3>.d, <Zt4>.d }, <PNg>, [<Xn|SP>{, #<imm>, mul vl}]",
    "st1q { <Zt>.q }, <Pg>, [<Zn>.d{, <Xm>}]",
    "st1h { <Zt>.d }, <Pg>, [<Xn|SP>, <Zm>.d, <mod> #1]",
    "st1h { <Zt>.d }, <Pg>, [<Xn|SP>, <Zm>.d, <mod>]",
    "st1h { <Zt>.d }, <Pg>, [<Xn|SP>, <Zm>.d, lsl #1]",
    "st1h { <Zt>.d }, <Pg>, [<Xn|SP>, <Zm>.d]",
    "st1h { <Zt>.s }, <Pg>, [<Xn|SP>, <Zm>.s, <mod> #1]",
    "st1h { <Zt>.s }, <Pg>, [<Xn|SP>, <Zm>.s, <mod>]",
    "st1w { <Zt>.d }, <Pg>, [<Xn|SP>, <Zm>.d, <mod> #2]",
    "st1w { <Zt>.d }, <Pg>, [<Xn|SP>, <Zm>.d, <mod>]",
    "st1w { <Zt>.d }, <Pg>, [<Xn|SP>, <Zm>.d, lsl #2]",
    "st1w { <Zt>.d }, <Pg>, [<Xn|SP>, <Zm>.d]",
    "st1w { <Zt>.s }, <Pg>, [<Xn|SP>, <Zm>.s, <mod> #2]",
    "st1w { <Zt>.s }, <Pg>, [<Xn|SP>, <Zm>.s, <mod>]",
    "st1b { <Zt1>.b, <Zt2>.b }, <PNg>, [<Xn|SP>, <Xm>]",
    "st1b { <Zt1>.b, <Zt2>.b, <Zt3>.b, <Zt4>.b }, <PNg>, [<Xn|SP>, <Xm>]",
    "st1b { <Zt1>.b, <Zt2>.b }, <PNg>, [<Xn|SP>{, #<imm>, mul vl}]",
    "st1b { <Zt1>.b, <Zt2>.b, <Zt3>.b, <Zt4>.b }, <PNg>, [<Xn|SP>{, #<imm>, mul vl}]",
    "st1h { <Zt1>.h, <Zt2>.h }, <PNg>, [<Xn|SP>, <Xm>, lsl #1]",
    "st1h { <Zt1>.h, <Zt2>.h, <Zt3>.h, <Zt4>.h }, <PNg>, [<Xn|SP>, <Xm>, lsl #1]",
    "st1h { <Zt1>.h, <Zt2>.h }, <PNg>, [<Xn|SP>{, #<imm>, mul vl}]",
    "st1h { <Zt1>.h, <Zt2>.h, <Zt3>.h, <Zt4>.h }, <PNg>, [<Xn|SP>{, #<imm>, mul vl}]",
    "st1w { <Zt1>.s, <Zt2>.s }, <PNg>, [<Xn|SP>, <Xm>, lsl #2]",
    "st1w { <Zt1>.s, <Zt2>.s, <Zt3>.s, <Zt4>.s }, <PNg>, [<Xn|SP>, <Xm>, lsl #2]",
    "st1w { <Zt1>.s, <Zt2>.s }, <PNg>, [<Xn|SP>{, #<imm>, mul vl}]",
    "st1w { <Zt1>.s, <Zt2>.s, <Zt3>.s, <Zt4>.s }, <PNg>, [<Xn|SP>{, #<imm>, mul vl}]",
];

/// The text of a store that [`crate::decode`] has answered; none for a class not in the list.
///
/// ```
/// use starshackle::{assembly, decode};
///
/// let store = decode(0xA16F_6000)?;
/// let text = "st1d { z0.d, z8.d }, pn8, [x0, #-2, mul vl]";
/// assert_eq!(assembly::text(&store).as_deref(), Some(text));
/// # Ok::<(), starshackle::Refusal>(())
/// ```
pub fn text(store: &Store) -> Option<String> {
    let line = usize::try_from(store.class).ok()?.checked_sub(1)?;
    let syntax = SYNTAX.get(line)?;
    let default = if syntax.contains("<imm>") { store.multiple == 0 } else { store.index == 31 };
    filled(&with_option(syntax, !default), store)
}

/// A syntax with a store's registers and numbers in the place of its symbols.
fn filled(syntax: &str, store: &Store) -> Option<String> {
    let mut parts = syntax.split('<');
    let mut text = parts.next()?.to_string();
    for part in parts {
        let (symbol, literal) = part.split_once('>')?;
        text += &operand(symbol, stride(syntax), store)?;
        text += literal;
    }
    Some(text)
}

/// How far the registers of a strided store are apart.
fn stride(syntax: &str) -> u64 {
    if syntax.contains("<Zt4>") {
        4
    } else {
        8
    }
}

/// The syntax with its optional part, `{, ..}`, kept or left away.
fn with_option(syntax: &str, keeps: bool) -> String {
    let parts = syntax.split_once("{,").and_then(|(before, rest)| {
        let (option, after) = rest.split_once('}')?;
        Some((before, option, after))
    });
    match parts {
        None => syntax.to_string(),
        Some((before, option, after)) if keeps => format!("{before},{option}{after}"),
        Some((before, _, after)) => format!("{before}{after}"),
    }
}

/// What stands for one of Arm's assembler symbols.
fn operand(symbol: &str, stride: u64, store: &Store) -> Option<String> {
    let vector = |step: u64| format!("z{}", store.register.wrapping_add(step * stride));
    Some(match symbol {
        "Zt" | "Zt1" => vector(0),
        "Zt2" => vector(1),
        "Zt3" => vector(2),
        "Zt4" => vector(3),
        "Pg" => format!("p{}", store.predicate),
        "PNg" => format!("pn{}", store.predicate.wrapping_add(8)),
        "Xn|SP" => general(store.base, "sp"),
        "Xm" => general(store.index, "xzr"),
        "Zn" => format!("z{}", store.base),
        "Zm" => format!("z{}", store.index),
        "imm" => store.multiple.to_string(),
        "mod" => match store.extension? {
            Extension::Uxtw => "uxtw".to_string(),
            Extension::Sxtw => "sxtw".to_string(),
        },
        _ => return None,
    })
}

/// A general register, whose number 31 has a name of its own.
fn general(number: u64, name_of_31: &str) -> String {
    match number {
        31 => name_of_31.to_string(),
        _ => format!("x{number}"),
    }
}

#[cfg(test)]
mod tests {
    use super::*;

    fn text_of(fields: crate::Fields) -> Option<String> {
        text(&Store::from(fields))
    }

    #[test]
    fn texts() {
        let cases = [
            ([1, 2, 2, 3, 31, 4, 0, 0], "st1d { z4.d }, p3, [sp, z2.d, sxtw #3]"),
            ([6, 31, 1, 7, 30, 5, 0, 0], "st1b { z5.s }, p7, [x30, z31.s, uxtw]"),
            ([8, 31, 0, 0, 1, 23, 0, 0], "st1d { z23.d, z31.d }, pn8, [x1, xzr, lsl #3]"),
            (
                [11, 0, 0, 7, 2, 19, (-32i64) as u64, 0],
                "st1d { z19.d, z23.d, z27.d, z31.d }, pn15, [x2, #-32, mul vl]",
            ),
            ([10, 0, 0, 0, 0, 0, 0, 0], "st1d { z0.d, z8.d }, pn8, [x0]"),
            ([12, 30, 0, 1, 31, 2, 0, 0], "st1q { z2.q }, p1, [z31.d, x30]"),
            ([12, 31, 0, 1, 31, 2, 0, 0], "st1q { z2.q }, p1, [z31.d]"),
            ([13, 2, 1, 3, 31, 4, 0, 0], "st1h { z4.d }, p3, [sp, z2.d, uxtw #1]"),
            ([16, 2, 0, 3, 31, 4, 0, 0], "st1h { z4.d }, p3, [sp, z2.d]"),
            ([17, 1, 2, 0, 0, 0, 0, 0], "st1h { z0.s }, p0, [x0, z1.s, sxtw #1]"),
            ([21, 30, 0, 7, 30, 31, 0, 0], "st1w { z31.d }, p7, [x30, z30.d, lsl #2]"),
            ([23, 1, 2, 0, 0, 0, 0, 0], "st1w { z0.s }, p0, [x0, z1.s, sxtw #2]"),
            ([24, 1, 1, 0, 31, 0, 0, 0], "st1w { z0.s }, p0, [sp, z1.s, uxtw]"),
            ([25, 1, 0, 0, 0, 0, 0, 0], "st1b { z0.b, z8.b }, pn8, [x0, x1]"),
            ([26, 31, 0, 1, 31, 19, 0, 0], "st1b { z19.b, z23.b, z27.b, z31.b }, pn9, [sp, xzr]"),
            ([27, 0, 0, 0, 2, 16, 14, 0], "st1b { z16.b, z24.b }, pn8, [x2, #14, mul vl]"),
            ([29, 3, 0, 7, 2, 7, 0, 0], "st1h { z7.h, z15.h }, pn15, [x2, x3, lsl #1]"),
            ([32, 0, 0, 0, 0, 0, 0, 0], "st1h { z0.h, z4.h, z8.h, z12.h }, pn8, [x0]"),
            (
                [34, 31, 0, 0, 1, 0, 0, 0],
                "st1w { z0.s, z4.s, z8.s, z12.s }, pn8, [x1, xzr, lsl #2]",
            ),
            (
                [36, 0, 0, 0, 31, 3, (-32i64) as u64, 0],
                "st1w { z3.s, z7.s, z11.s, z15.s }, pn8, [sp, #-32, mul vl]",
            ),
        ];
        for (fields, text) in cases {
            assert_eq!(text_of(fields).as_deref(), Some(text));
        }
    }

    #[test]
    fn no_text() {
        assert_eq!(text_of([0; 8]), None);
        assert_eq!(text_of([u64::MAX, 0, 0, 0, 0, 0, 0, 0]), None);
    }
}
