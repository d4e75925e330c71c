//! What a store has done, and how it is shown.

mod page;

use crate::counter::Counter;
use crate::faults::Faults;
use crate::json::{Json, Members};
use crate::known::{self, Known};
use crate::lanes::Lanes;
use crate::length::Length;
use crate::look::Look;
use crate::missing::Missing;
use crate::notes::{self, Notes};
use crate::overlap::Overlap;
use crate::picture::picture;
use crate::rows::{self, Row};
use crate::store::Described;
use crate::views::View;
use crate::{cause, numbers, verdicts};
use starshackle::{Refusal, Stored, Verdict, Window, LARGEST_STORE_PATCH};

/// A store after its run.
pub struct Answer {
    word: Option<u32>,
    known: Option<Known>,
    pub outcome: Result<Stored, Refusal>,
    cause: Notes,
    /// None where VB is allowed.
    length_rule: Option<Length>,
    pub missing: Missing,
    /// None where there are no elements.
    counter: Option<Counter>,
    rows: Vec<Row>,
    /// As what the elements' bytes are shown too.
    view: Option<&'static View>,
    faults: Option<Faults>,
    overlap: Option<Overlap>,
    lanes: Lanes,
    base: u64,
    length: u64,
    memory: Vec<u8>,
}

impl Answer {
    pub fn of(mut described: Described) -> Answer {
        let mut memory = std::mem::take(&mut described.memory);
        let Described { word, ref registers, base, length, .. } = described;
        let machine = registers.machine();
        let window = Window { base, memory: &mut memory };
        let mut scratch = [0; LARGEST_STORE_PATCH]; // for the patch, which isn't shown
        let store = |word| starshackle::store(&machine, window, word, &mut scratch);
        let outcome = word.and_then(store);
        let rows = word.map_or(Vec::new(), |word| rows::of(&machine, word));
        let known = word.and_then(Known::decode).ok();
        let counter = known.as_ref().zip(rows.first()).and_then(|(known, first)| {
            Counter::of(known, &machine, rows.len(), first.element.bytes)
        });
        Answer {
            word: word.ok(),
            known,
            cause: cause::of(&described, &outcome),
            length_rule: Length::of(&machine, registers.gives_vb(), &outcome),
            missing: Missing::of(word, registers, &outcome),
            counter,
            faults: Faults::of(&outcome, &rows, (base, length)),
            overlap: Overlap::of(&outcome, &rows, base),
            lanes: Lanes::of(outcome.is_ok(), &rows, base, memory.len()),
            outcome,
            rows,
            view: None,
            base,
            length,
            memory,
        }
    }

    /// The same with the elements' bytes as numbers of a type too, if they are made of such.
    pub fn viewed(self, view: Option<&'static View>) -> Result<Answer, String> {
        if let (Some(view), Some(first)) = (view, self.rows.first()) {
            view.check(first.bytes.len())?;
        }
        Ok(Answer { view, ..self })
    }

    pub fn text(&self, look: &Look) -> String {
        let parts = [self.store_text(), self.elements_text(look), self.window_text(look)];
        let parts: String = parts.into_iter().flatten().map(|part| format!("\n{part}")).collect();
        let verdict = verdicts::explained(&self.outcome, verdicts::counts, &self.cause);
        look.verdict(self.outcome.is_ok(), &verdict) + &self.missing.text() + &parts
    }

    fn store_text(&self) -> Option<String> {
        let word = numbers::hexadecimal(self.word?);
        let store = self.known.as_ref().map_or("no class\n".to_string(), Known::text);
        Some(format!("{word}: {store}"))
    }

    fn elements_text(&self, look: &Look) -> Option<String> {
        if self.rows.is_empty() {
            return None;
        }
        let mut text = rows::head(&self.rows, self.view.map(View::head));
        for (number, row) in self.rows.iter().enumerate() {
            let fault = self.faults.as_ref().and_then(|faults| faults.mark(number));
            let overlap = || self.overlap.as_ref().and_then(|overlap| overlap.mark(number));
            let value = self.view.map(|view| view.text(&row.bytes));
            text += &row.text(number, fault.or_else(overlap), value, look);
        }
        text += &self.view.map_or(String::new(), View::note);
        text += &self.counter.as_ref().map_or(String::new(), Counter::text);
        let faults = self.faults.iter().flat_map(Faults::notes);
        let notes = faults.chain(self.overlap.as_ref().map(Overlap::note));
        text.extend(notes.map(|note| notes::line(&note)));
        Some(text)
    }

    /// Whether the store's elements were held to the window, and it wasn't refused before.
    fn reached_window(&self) -> bool {
        matches!(self.outcome, Ok(_) | Err(Refusal::Fault { .. } | Refusal::Overlap { .. }))
    }

    fn window_text(&self, look: &Look) -> Option<String> {
        if !self.reached_window() {
            return None;
        }
        let (address, length) = (numbers::address(self.base), self.length);
        let start = format!("window at {address}, length {length}, written bytes in [ ]");
        let picture = picture(self.base, &self.memory, &self.lanes.0, look);
        Some(format!("{start}{}\n{picture}", look.heading()))
    }

    /// The members of its object in JSON.
    pub fn members(&self) -> Members {
        let mut members = Vec::from(verdicts::members(Verdict::of(&self.outcome)));
        members.push(("word", self.word.map(numbers::hexadecimal).into()));
        members.extend(known::members(self.known.as_ref()));
        members.push(("cause", self.cause.json()));
        members.push(("length_rule", self.length_rule.as_ref().map(Length::json).into()));
        members.push(("not_given", self.missing.json()));
        members.push(("counter_means", self.counter.as_ref().map(Counter::json).into()));
        members.extend(verdicts::store_members(&self.outcome));
        members.push(("faulting", self.faults.as_ref().map(Faults::json).into()));
        members.push(("shares_with", self.overlap.as_ref().map(Overlap::json).into()));
        let written = self.outcome.is_ok().then(|| self.lanes.json(self.base));
        members.extend([("elements", self.rows_json()), ("as", self.values_json())]);
        members.push(("written", written.into()));
        members.push(("window", self.window_json()));
        members
    }

    fn rows_json(&self) -> Json {
        if self.rows.is_empty() {
            return Json::Null;
        }
        let rows = self.rows.iter().enumerate().map(|(number, row)| row.json(number));
        Json::List(rows.collect())
    }

    fn values_json(&self) -> Json {
        let elements = || self.rows.iter().map(|row| &row.bytes[..]);
        let view = self.view.filter(|_| !self.rows.is_empty());
        view.map(|view| view.json(elements())).into()
    }

    fn window_json(&self) -> Json {
        let memory = self.reached_window().then(|| numbers::bytes(&self.memory, ""));
        Json::Object(vec![
            ("address", numbers::address(self.base).into()),
            ("length", self.length.into()),
            ("memory", memory.into()),
        ])
    }
}
