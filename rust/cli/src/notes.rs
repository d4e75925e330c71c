//! What explains an answer and is no part of it.

use crate::json::Json;

/// Notes, a line each.
#[derive(Debug, Default, PartialEq, Eq)]
pub struct Notes(pub Vec<String>);

/// A note's line.
pub fn line(note: &str) -> String {
    format!("  note (not proved): {note}\n")
}

impl Notes {
    pub fn is_empty(&self) -> bool {
        self.0.is_empty()
    }

    pub fn text(&self) -> String {
        self.0.iter().map(|note| line(note)).collect()
    }

    pub fn json(&self) -> Json {
        if self.is_empty() {
            return Json::Null;
        }
        let notes = self.0.iter().map(|note| note.as_str().into()).collect();
        Json::Object(vec![("notes", Json::List(notes)), ("proved", false.into())])
    }
}
