//! The registers that a store reads and its file doesn't give.
//!
//! The model gets them as 0. What is said of them explains its answer and is no part of it.

use crate::arguments::{all_of, one_of, Arguments};
use crate::command::Failure;
use crate::input;
use crate::json::Json;
use crate::known::Known;
use crate::notes;
use crate::register::Register;
use crate::store::Registers;
use starshackle::Refusal;
use std::ffi::OsStr;

/// The option that makes them an error.
pub const REQUIRE: &str = "--require-registers";

/// Their names; none where the model says that there is no store.
pub struct Missing(Option<Vec<String>>);

impl Missing {
    pub fn of<T>(
        word: Result<u32, Refusal>,
        registers: &Registers,
        outcome: &Result<T, Refusal>,
    ) -> Missing {
        // A word whose class needs a flag that is off decodes, and is undefined.
        let is_undefined = matches!(outcome, Err(Refusal::Undefined));
        let known = word.and_then(Known::decode).ok().filter(|_| !is_undefined);
        let is_missing = |register: &Register| !registers.gives(register);
        Missing(known.map(|known| {
            let missing = known.registers().into_iter().filter(is_missing);
            missing.map(|register| register.to_string()).collect()
        }))
    }

    /// An error where there are some and the arguments want none.
    pub fn check(&self, arguments: &Arguments, path: &OsStr) -> Result<(), Failure> {
        let problem = self.problem(arguments, "line");
        problem.map_err(|problem| Failure::of_file(&input::name(path), &problem))
    }

    /// The same, by what gives a register.
    pub fn problem(&self, arguments: &Arguments, giver: &str) -> Result<(), String> {
        if self.names().is_empty() || !arguments.has(REQUIRE) {
            return Ok(());
        }
        let problem = format!("no {giver} for {}", one_of(self.names()));
        Err(format!("{problem}; {REQUIRE} wants one for each register that the store reads"))
    }

    /// The line about them, if there are any.
    pub fn text(&self) -> String {
        let zero = match self.names().len() {
            0 => return String::new(),
            1 => "which isn't given and so is 0",
            _ => "which aren't given and so are 0",
        };
        notes::line(&format!("the store reads {}, {zero}", all_of(self.names())))
    }

    fn names(&self) -> Vec<&str> {
        self.0.iter().flatten().map(String::as_str).collect()
    }

    pub fn json(&self) -> Json {
        let names = Json::List(self.names().into_iter().map(Json::from).collect());
        let members = || vec![("registers", names), ("proved", false.into())];
        self.0.as_ref().map(|_| Json::Object(members())).into()
    }
}
