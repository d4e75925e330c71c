//! A word whose bytes are those of a store in the other order.
//!
//! That explains why a word is undefined and is no part of the model's answer.

use crate::json::Json;
use crate::known::Known;
use crate::numbers;

/// The word that is a store.
pub struct Swapped {
    word: u32,
    known: Known,
}

impl Swapped {
    /// The bytes of a word in the other order, if they are a store.
    pub fn of(word: u32) -> Option<Swapped> {
        let word = word.swap_bytes();
        Some(Swapped { word, known: Known::decode(word).ok()? })
    }

    /// What is said of it, without an end.
    pub fn text(&self) -> String {
        let word = numbers::hexadecimal(self.word);
        format!("with its bytes in the other order it is {word}, {}", self.known.class_text())
    }

    pub fn json(&self) -> Json {
        let mut members = vec![("word", numbers::hexadecimal(self.word).into())];
        members.extend(self.known.class_members());
        members.push(("proved", false.into()));
        Json::Object(members)
    }
}

#[cfg(test)]
mod tests {
    use super::*;

    #[test]
    fn words() {
        let text = Swapped::of(0x01A0_A2E5).unwrap().text();
        let expected =
            "with its bytes in the other order it is E5A2A001, class 3, ST1D, 64-bit scaled";
        assert_eq!(text, expected);
        assert!(Swapped::of(0xE5A2_A001).is_none() && Swapped::of(0).is_none());
    }
}
