//! The answers in JSON are well-formed, and `docs/JSON.md` has every key of them: its type, and
//! whether it may be null or absent. The answers are those in `tests/golden/`.

mod parser;

use parser::Value;
use std::collections::{BTreeMap, BTreeSet};
use std::fs;
use std::path::Path;

const ROOT: &str = concat!(env!("CARGO_MANIFEST_DIR"), "/../..");

/// A line of a table: what a key may be.
#[derive(Debug)]
struct Row {
    kind: String,
    /// Empty for a key that is never null.
    null: bool,
    absent: bool,
}

/// The tables of the document, each by its command.
fn tables() -> BTreeMap<String, BTreeMap<String, Row>> {
    let text = fs::read_to_string(Path::new(ROOT).join("docs/JSON.md")).unwrap();
    let (mut tables, mut command) = (BTreeMap::new(), String::new());
    for line in text.lines() {
        if let Some(name) = line.strip_prefix("## ") {
            command = name.to_string();
        } else if line.starts_with("| `") {
            let cells: Vec<&str> = line.split('|').map(str::trim).collect();
            assert_eq!(cells.len(), 6, "{line}");
            let row = Row {
                kind: cells[2].to_string(),
                null: !cells[3].starts_with("never"),
                absent: cells[3].ends_with("may be absent"),
            };
            let key = cells[1].trim_matches('`').to_string();
            let table: &mut BTreeMap<String, Row> = tables.entry(command.clone()).or_default();
            assert!(table.insert(key, row).is_none(), "{line} twice");
        }
    }
    tables
}

/// The answers in JSON that are stored, each with its command.
fn answers() -> Vec<(String, Value)> {
    let mut answers = Vec::new();
    for entry in fs::read_dir(Path::new(ROOT).join("rust/cli/tests/golden")).unwrap() {
        let text = fs::read_to_string(entry.unwrap().path()).unwrap();
        for block in text.split("$ starshackle ").skip(1) {
            let (line, rest) = block.split_once('\n').unwrap();
            let end = rest.find("[standard error]").or_else(|| rest.find("[status ")).unwrap();
            let mut words = line.split_whitespace().filter(|word| *word != "--json");
            if line.contains("--json") && end > 0 && !line.starts_with("help") {
                let value = |text| parser::parse(text).unwrap_or_else(|| panic!("{block}"));
                let command = words.next().unwrap();
                if line.contains("--jsonl") {
                    let lines = rest[..end].lines().map(|line| of_line(command, value(line)));
                    answers.extend(lines);
                } else {
                    answers.extend(objects(command, value(&rest[..end])));
                }
            }
        }
    }
    answers
}

/// An answer to a line, with the table that it has.
fn of_line(command: &str, answer: Value) -> (String, Value) {
    let table = if has(&answer, "error") { "Lines" } else { command };
    (table.to_string(), answer)
}

fn has(value: &Value, key: &str) -> bool {
    matches!(value, Value::Object(members) if members.iter().any(|(name, _)| name == key))
}

/// The objects of an answer, each with the table that it has.
fn objects(command: &str, answer: Value) -> Vec<(String, Value)> {
    let items = match answer {
        Value::List(items) => items,
        object => return vec![(command.to_string(), object)],
    };
    let table = |value: Value| match value {
        value if has(&value, "error") => ("Many files".to_string(), value),
        Value::Object(mut members) if command != "decode" => {
            let (file, _) = members.remove(1);
            assert_eq!(file, "file", "{command}");
            (command.to_string(), Value::Object(members))
        }
        object => (command.to_string(), object),
    };
    items.into_iter().map(table).collect()
}

/// What was found at a key: names of types, `null` and `absent` among them.
type Found = BTreeMap<String, BTreeSet<&'static str>>;

/// Notes what is at a path and below it.
fn walk(path: &str, value: &Value, table: &BTreeMap<String, Row>, found: &mut Found) {
    match value {
        Value::List(items) => {
            for item in items {
                let path = format!("{path}[]");
                if !matches!(item, Value::Object(_)) {
                    found.entry(path.clone()).or_default().insert(item.kind());
                }
                walk(&path, item, table, found);
            }
        }
        Value::Object(members) => {
            let start = if path.is_empty() { String::new() } else { format!("{path}.") };
            for (name, value) in members {
                let path = format!("{start}{name}");
                found.entry(path.clone()).or_default().insert(value.kind());
                walk(&path, value, table, found);
            }
            let has = |name: &str| members.iter().any(|(other, _)| other == name);
            let direct = |key: &&String| {
                key.strip_prefix(&start).map_or(false, |name| !name.contains(&['.', '['][..]))
            };
            for key in table.keys().filter(direct).filter(|key| !has(&key[start.len()..])) {
                found.entry(key.clone()).or_default().insert("absent");
            }
        }
        _ => (),
    }
}

#[test]
fn the_document_has_every_key() {
    let tables = tables();
    let mut commands: BTreeMap<String, Found> = BTreeMap::new();
    for (command, value) in answers() {
        let table = tables.get(&command).unwrap_or_else(|| panic!("no table for {command}"));
        let found = commands.entry(command.clone()).or_default();
        assert!(matches!(value, Value::Object(_)), "{command}: no object");
        walk("", &value, table, found);
    }
    assert!(commands.keys().eq(tables.keys()), "a table without answers");
    for (command, found) in &commands {
        let table = &tables[command];
        assert!(found.keys().eq(table.keys()), "{command}: {:?}", difference(found, table));
        for (key, kinds) in found {
            let Row { kind, null, absent } = &table[key];
            let mut expected = BTreeSet::from([kind.as_str()]);
            expected.extend(null.then_some("null"));
            expected.extend(absent.then_some("absent"));
            assert_eq!(*kinds, expected, "{command} {key}: found left, documented right");
        }
    }
}

/// The keys that only one of them has.
fn difference<'a>(found: &'a Found, table: &'a BTreeMap<String, Row>) -> Vec<&'a String> {
    let only_found = found.keys().filter(|key| !table.contains_key(*key));
    only_found.chain(table.keys().filter(|key| !found.contains_key(*key))).collect()
}

/// What a refusal has no value for is null.
#[test]
fn refusals_have_no_counts() {
    let counts = ["active_elements", "bytes_moved", "steps", "length", "patch"];
    let applied = ["payload_bytes", "runs"];
    for (command, value) in answers() {
        let members = match &value {
            Value::Object(members) if command != "show" => members,
            _ => continue,
        };
        let number = |name: &str| members.iter().find(|(key, _)| key == name).map(|(_, v)| v);
        let refused = !matches!(number("verdict"), Some(Value::Number(number)) if number == "0");
        for name in counts.iter().chain(&applied) {
            if let Some(value) = number(name) {
                assert_eq!(value.kind() == "null", refused, "{command} {name}");
            }
        }
    }
}
