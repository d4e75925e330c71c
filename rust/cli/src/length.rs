//! The rule for the vector length by which a store was refused with 1.
//!
//! The model tells that VB isn't allowed. Which rule said so is read here from edition and flags; it
//! explains the answer and is no part of it.

use crate::json::Json;
use crate::store::edition_name;
use starshackle::{Edition, Flags, LengthRule, Machine, Refusal};

/// A rule and what it was applied to.
pub struct Length {
    vb: u64,
    /// Whether the file gives VB.
    given: bool,
    edition: Edition,
    streaming: bool,
    rule: LengthRule,
}

impl Length {
    /// The rule that refused a store, if one did.
    pub fn of<T>(machine: &Machine, given: bool, outcome: &Result<T, Refusal>) -> Option<Length> {
        let Machine { vb, flags, edition, .. } = *machine;
        let (streaming, rule) = (flags.contains(Flags::STREAMING), edition.rule(flags));
        let refused = matches!(outcome, Err(Refusal::Length));
        refused.then_some(Length { vb: vb as u64, given, edition, streaming, rule })
    }

    /// The note about it.
    pub fn text(&self) -> String {
        let given = format!("VB is {}", self.vb);
        let length = if self.given { given } else { "VB was not given".to_string() };
        format!("{length}; {}", self.allowed())
    }

    /// The same of any machine, given or not.
    pub fn rule(&self) -> String {
        format!("vb is {}; {}", self.vb, self.allowed())
    }

    fn allowed(&self) -> String {
        let Length { edition, rule, .. } = self;
        let cause = match (edition, rule) {
            (Edition::Early, LengthRule::OneOfFive) => {
                "with streaming on, under both editions,".to_string()
            }
            _ => format!("under the {} edition", edition_name(*edition)),
        };
        format!("{cause} it may be {rule}")
    }

    pub fn json(&self) -> Json {
        Json::Object(vec![
            ("vb", self.vb.into()),
            ("given", self.given.into()),
            ("edition", edition_name(self.edition).into()),
            ("streaming", self.streaming.into()),
            ("allowed", self.rule.to_string().into()),
            ("proved", false.into()),
        ])
    }
}

#[cfg(test)]
mod tests {
    use super::*;
    use starshackle::elements;

    /// A word that is no store: only its length is judged.
    fn refused(machine: &Machine) -> Option<Length> {
        Length::of(machine, true, &elements(machine, 0))
    }

    /// The rule that is named is the one by which the model refuses, at every length.
    #[test]
    fn rules_are_the_models() {
        for flags in 0..128 {
            for edition in [Edition::Early, Edition::Late] {
                let flags = Flags(flags);
                for vb in 0..600 {
                    let machine = Machine { vb, flags, edition, ..Machine::default() };
                    let allowed = match edition.rule(flags) {
                        LengthRule::AnyMultiple => (1..=16).any(|number| 16 * number == vb),
                        LengthRule::OneOfFive => [16, 32, 64, 128, 256].contains(&vb),
                    };
                    assert_eq!(refused(&machine).is_none(), allowed, "{machine:?}");
                }
            }
        }
    }

    #[test]
    fn texts() {
        let text = |vb, flags, edition| {
            refused(&Machine { vb, flags, edition, ..Machine::default() }).unwrap().text()
        };
        let five = "it may be 16, 32, 64, 128 or 256";
        assert_eq!(
            text(48, Flags::SVE, Edition::Late),
            format!("VB is 48; under the late edition {five}")
        );
        assert_eq!(
            text(48, Flags::STREAMING, Edition::Early),
            format!("VB is 48; with streaming on, under both editions, {five}")
        );
        assert_eq!(
            text(40, Flags::SVE, Edition::Early),
            "VB is 40; under the early edition it may be any multiple of 16 from 16 to 256"
        );
        let machine = Machine::default();
        let none = Length::of(&machine, false, &elements(&machine, 0)).unwrap();
        assert_eq!(none.text(), format!("VB was not given; under the late edition {five}"));
    }
}
