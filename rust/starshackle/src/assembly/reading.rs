//! Reading assembly text: the word whose text it is.
//!
//! Which registers and immediates there are is asked of the model: those with which a store has a
//! word. A word that is found is decoded, and the text of what it is has to be the given one.

use super::{operand, stride, with_option, SYNTAX};
use crate::{decode, encode, Extension, Store};
use std::fmt::{self, Display, Formatter};

/// Why a text is no store's: what was found behind the part that may start one, and what may stand
/// there.
#[derive(Clone, Debug, PartialEq, Eq)]
pub struct Misread {
    /// How many tokens are before it.
    place: usize,
    /// What was found; none at the end of the text.
    pub found: Option<String>,
    /// What may stand there.
    pub expected: Vec<String>,
}

impl Misread {
    /// Of two, the one that got further. Of two that got as far, both count.
    fn join(&mut self, other: Misread) {
        if other.place > self.place || self.expected.is_empty() {
            *self = other;
        } else if other.place == self.place {
            let new = other.expected.into_iter().filter(|one| !self.expected.contains(one));
            self.expected.extend(new.collect::<Vec<_>>());
        }
    }
}

/// How many letters of what was found a message shows.
const MOST: usize = 40;

impl Display for Misread {
    fn fmt(&self, f: &mut Formatter) -> fmt::Result {
        match &self.found {
            Some(found) if found.chars().count() > MOST => {
                let start: String = found.chars().take(MOST).collect();
                write!(f, "'{}..'", start.escape_debug())?;
            }
            Some(found) => write!(f, "'{}'", found.escape_debug())?,
            None => f.write_str("the end")?,
        }
        write!(f, "; expected {}", self.expected.join(" or "))
    }
}

impl std::error::Error for Misread {}

/// The word whose text this is, in upper or lower case. Spaces don't count, nor does a `#`;
/// immediates are decimal or hexadecimal, and one of 0 may be written or left out.
///
/// ```
/// use starshackle::assembly::word;
///
/// assert_eq!(word("ST1D {Z0.D,Z8.D}, PN8, [X0, -0x2, MUL VL]"), Ok(0xA16F_6000));
/// let misread = word("st1d { z0.d, z1.d }, pn8, [x0]").unwrap_err();
/// assert_eq!(misread.to_string(), "'z1.d'; expected z8.d or z4.d");
/// ```
pub fn word(text: &str) -> Result<u32, Misread> {
    let given = tokens(&text.to_ascii_lowercase());
    let mut furthest = Misread { place: 0, found: None, expected: vec![] };
    for (class, syntax) in (1..).zip(SYNTAX) {
        for keeps in [true, false] {
            match read(class, &with_option(syntax, keeps), &given) {
                Ok(store) => return checked(store, syntax, &given),
                Err(misread) => furthest.join(misread),
            }
        }
    }
    Err(furthest)
}

/// The store's word, if what it decodes to has this text, with its optional part or without.
fn checked(store: Store, syntax: &str, given: &[String]) -> Result<u32, Misread> {
    let text = |word, keeps| {
        super::filled(&with_option(syntax, keeps), &decode(word).ok()?).map(|text| tokens(&text))
    };
    let is_right =
        |word: &u32| [true, false].iter().any(|k| text(*word, *k).as_deref() == Some(given));
    encode(store).ok().filter(is_right).ok_or_else(|| Misread {
        place: 0,
        found: Some(given.join(" ")),
        expected: vec!["a text that is that of its word".to_string()],
    })
}

/// What spaces and marks part. An immediate is `#` and a decimal number.
fn tokens(text: &str) -> Vec<String> {
    let (mut tokens, mut goes_on): (Vec<String>, bool) = (Vec::new(), false);
    for letter in text.chars() {
        let is_mark = "{}[],".contains(letter);
        if letter.is_whitespace() {
            goes_on = goes_on && tokens.last().map_or(false, |token| token == "#");
        } else if let Some(token) = tokens.last_mut().filter(|_| goes_on && !is_mark) {
            token.push(letter);
        } else {
            tokens.push(letter.to_string());
            goes_on = !is_mark;
        }
    }
    tokens.into_iter().map(|token| immediate(&token).unwrap_or(token)).collect()
}

/// An immediate in the form that texts are compared in.
fn immediate(token: &str) -> Option<String> {
    let signed = token.strip_prefix('#').unwrap_or(token);
    let digits = signed.strip_prefix('-').unwrap_or(signed);
    let value = match digits.strip_prefix("0x") {
        Some(digits) => number(digits, 16)?,
        None => number(digits, 10)?,
    };
    Some(format!("#{}", if digits.len() < signed.len() { -value } else { value }))
}

/// Plain digits: the library's reader takes a sign too.
fn number(digits: &str, radix: u32) -> Option<i64> {
    let plain = digits.chars().all(|digit| digit.is_digit(radix));
    i64::from_str_radix(digits, radix).ok().filter(|_| plain)
}

/// The store of a class that these tokens name.
fn read(class: u64, syntax: &str, given: &[String]) -> Result<Store, Misread> {
    // The default where the option is left out.
    let index = if syntax.contains("<Zn>") { 31 } else { 0 };
    let extension = syntax.contains("<mod>").then_some(Extension::Uxtw);
    let mut store = Store { class, index, extension, ..Store::default() };
    let wanted = tokens(syntax);
    let problem = |place: usize, expected: String| Misread {
        place,
        found: given.get(place).cloned(),
        expected: vec![expected],
    };
    for (place, wanted) in wanted.iter().enumerate() {
        let found = given.get(place).and_then(|found| take(wanted, syntax, found, &store));
        store = found.ok_or_else(|| problem(place, expected(wanted, syntax, &store)))?;
    }
    match given.len() > wanted.len() {
        true => Err(problem(wanted.len(), "the end".to_string())),
        false => Ok(store),
    }
}

/// A token of a syntax: what stands before its symbol, the symbol, and what stands behind it.
fn symbol(wanted: &str) -> Option<(&str, &str, &str)> {
    let (before, rest) = wanted.split_once('<')?;
    let (symbol, behind) = rest.split_once('>')?;
    Some((before, symbol, behind))
}

/// The store with what a token says of it, if it says what the syntax wants.
fn take(wanted: &str, syntax: &str, found: &str, store: &Store) -> Option<Store> {
    let (before, symbol, behind) = match symbol(wanted) {
        Some(parts) => parts,
        None => return (wanted == found).then_some(*store),
    };
    let name = found.strip_prefix(before)?.strip_suffix(behind)?;
    let is_named = |store: &Store| operand(symbol, stride(syntax), store).as_deref() == Some(name);
    candidates(symbol, store).into_iter().find(|store| is_named(store) && encode(*store).is_ok())
}

/// The stores that differ in what a symbol stands for.
fn candidates(symbol: &str, store: &Store) -> Vec<Store> {
    let store = *store;
    let with = |put: fn(Store, u64) -> Store| (0..32).map(|value| put(store, value)).collect();
    match symbol {
        "Zt" | "Zt1" => with(|store, register| Store { register, ..store }),
        "Pg" | "PNg" => with(|store, predicate| Store { predicate, ..store }),
        "Xn|SP" | "Zn" => with(|store, base| Store { base, ..store }),
        "Xm" | "Zm" => with(|store, index| Store { index, ..store }),
        "imm" => (-64..64).map(|multiple| Store { multiple, ..store }).collect(),
        "mod" => [Extension::Uxtw, Extension::Sxtw]
            .map(|extension| Store { extension: Some(extension), ..store })
            .to_vec(),
        _ => vec![store],
    }
}

/// What a token of a syntax may be, for messages.
fn expected(wanted: &str, syntax: &str, store: &Store) -> String {
    let (_, symbol, behind) = match symbol(wanted) {
        Some(parts) => parts,
        None => return wanted.to_string(),
    };
    let two = stride(syntax) == 8;
    match symbol {
        "Zt" | "Zn" | "Zm" => format!("z0{behind} to z31{behind}"),
        "Zt1" if two => format!("z0{behind} to z7{behind} or z16{behind} to z23{behind}"),
        "Zt1" => format!("z0{behind} to z3{behind} or z16{behind} to z19{behind}"),
        "Pg" => "p0 to p7".to_string(),
        "PNg" => "pn8 to pn15".to_string(),
        "Xn|SP" => "x0 to x30 or sp".to_string(),
        "Xm" => "x0 to x30 or xzr".to_string(),
        "imm" if two => "a multiple of 2 from #-16 to #14".to_string(),
        "imm" => "a multiple of 4 from #-32 to #28".to_string(),
        "mod" => "uxtw or sxtw".to_string(),
        _ => operand(symbol, stride(syntax), store).unwrap_or_default() + behind,
    }
}

#[cfg(test)]
mod tests {
    use super::*;
    use crate::assembly::text;

    /// For words of all classes their text is read as the word.
    #[test]
    fn texts_are_read_back() {
        let mut random = 1u64;
        let mut below = |bound: usize| {
            random = random.wrapping_mul(6_364_136_223_846_793_005).wrapping_add(1);
            (random >> 33) as usize % bound
        };
        for (class, syntax) in (1..).zip(SYNTAX) {
            for _ in 0..1000 {
                let extension = syntax.contains("<mod>").then_some(Extension::Uxtw);
                let mut store = Store { class, extension, ..Store::default() };
                for (_, symbol, _) in
                    tokens(&with_option(syntax, true)).iter().filter_map(|t| symbol(t))
                {
                    let mut candidates = candidates(symbol, &store);
                    candidates.retain(|store| encode(*store).is_ok());
                    store = candidates[below(candidates.len())];
                }
                let (word, text) = (encode(store).unwrap(), text(&store).unwrap());
                assert_eq!(super::word(&text), Ok(word), "{text}");
            }
        }
    }

    #[test]
    fn other_spellings() {
        for (text, expected) in [
            ("st1d\t{z1.d}, p0, [x0, z2.d, lsl 3]", "st1d { z1.d }, p0, [x0, z2.d, lsl #3]"),
            (" ST1Q {Z2.Q},P1,[Z31.D,XZR] ", "st1q { z2.q }, p1, [z31.d]"),
            ("st1b {z0.b,z8.b},pn8,[x0,#0,mul vl]", "st1b { z0.b, z8.b }, pn8, [x0]"),
            (
                "st1w{z0.s,z8.s},pn8,[sp, # -0X10 ,mul  vl]",
                "st1w { z0.s, z8.s }, pn8, [sp, #-16, mul vl]",
            ),
        ] {
            let word = word(text).unwrap();
            assert_eq!(crate::assembly::text(&decode(word).unwrap()).as_deref(), Some(expected));
        }
    }

    #[test]
    fn what_is_not_understood() {
        for (text, expected) in [
            ("", "the end; expected st1d or st1b or st1q or st1h or st1w"),
            ("ldr x0, [x1]", "'ldr'; expected st1d or st1b or st1q or st1h or st1w"),
            ("st1d { z1.s }, p0, [x0, z2.d]", "'z1.s'; expected z0.d to z31.d or z0.d to z7.d or z16.d to z23.d or z0.d to z3.d or z16.d to z19.d"),
            ("st1d { z1.d }, p8, [x0, z2.d]", "'p8'; expected p0 to p7"),
            ("st1q { z1.q }, p1, [x0]", "'x0'; expected z0.d to z31.d"),
            ("st1d { z1.d }, p1, [x31, z0.d]", "'x31'; expected x0 to x30 or sp"),
            ("st1d { z1.d }, p1, [x3, z0.d, lsl #2]", "'#2'; expected #3"),
            ("st1d { z0.d - z3.d }, pn8, [x0]", "'-'; expected } or ,"),
            ("st1d { z0.d, z8.d }, pn7, [x0]", "'pn7'; expected pn8 to pn15"),
            ("st1d { z0.d, z8.d }, pn8, [x0, #3, mul vl]", "'#3'; expected x0 to x30 or xzr or a multiple of 2 from #-16 to #14"),
            ("st1d { z0.d, z8.d }, pn8, [x0] x", "'x'; expected the end"),
            ("st1d { z0.d, z8.d }, pn8, [x0", "the end; expected , or ]"),
            ("st1d { z0.d, z8.d }, pn8, [x0, #99999999999999999999, mul vl]", "'#99999999999999999999'; expected x0 to x30 or xzr or a multiple of 2 from #-16 to #14"),
            ("st1d { \u{1b}é", "'\\u{1b}é'; expected z0.d to z31.d or z0.d to z7.d or z16.d to z23.d or z0.d to z3.d or z16.d to z19.d"),
        ] {
            assert_eq!(word(text).unwrap_err().to_string(), expected, "{text}");
        }
    }
}
