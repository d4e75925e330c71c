//! A strict reader of JSON, for tests, of which each uses a part.

#![allow(dead_code)]

pub enum Value {
    Null,
    Bool(bool),
    Number(String),
    Text(String),
    List(Vec<Value>),
    Object(Vec<(String, Value)>),
}

impl Value {
    /// The name of its type.
    pub fn kind(&self) -> &'static str {
        match self {
            Value::Null => "null",
            Value::Bool(_) => "boolean",
            Value::Number(_) => "number",
            Value::Text(_) => "string",
            Value::List(_) => "list",
            Value::Object(_) => "object",
        }
    }

    /// The value of an object's key, if it has it.
    pub fn get(&self, key: &str) -> Option<&Value> {
        match self {
            Value::Object(members) => {
                members.iter().find(|(name, _)| name == key).map(|(_, value)| value)
            }
            _ => None,
        }
    }

    pub fn items(&self) -> &[Value] {
        match self {
            Value::List(items) => items,
            _ => &[],
        }
    }

    /// A number in decimal, or an address.
    pub fn number(&self) -> u64 {
        match self {
            Value::Number(digits) => digits.parse().unwrap(),
            Value::Text(text) => u64::from_str_radix(text.strip_prefix("0x").unwrap(), 16).unwrap(),
            _ => panic!("{}", self.kind()),
        }
    }

    /// Bytes in hexadecimal.
    pub fn bytes(&self) -> Vec<u8> {
        match self {
            Value::Text(text) => (0..text.len() / 2)
                .map(|byte| u8::from_str_radix(&text[2 * byte..][..2], 16).unwrap())
                .collect(),
            _ => panic!("{}", self.kind()),
        }
    }
}

/// The value of a text, if it is one and nothing else.
pub fn parse(text: &str) -> Option<Value> {
    let mut rest = text;
    let value = value(&mut rest)?;
    rest.trim_start().is_empty().then_some(value)
}

/// Takes a token from the front, behind white space.
fn take(rest: &mut &str, token: &str) -> Option<()> {
    *rest = rest.trim_start().strip_prefix(token)?;
    Some(())
}

fn value(rest: &mut &str) -> Option<Value> {
    match rest.trim_start().chars().next()? {
        'n' => take(rest, "null").map(|()| Value::Null),
        't' => take(rest, "true").map(|()| Value::Bool(true)),
        'f' => take(rest, "false").map(|()| Value::Bool(false)),
        '"' => text(rest).map(Value::Text),
        '[' => items(rest, ["[", "]"], value).map(Value::List),
        '{' => {
            let object = items(rest, ["{", "}"], |rest| {
                let name = text(rest)?;
                take(rest, ":")?;
                Some((name, value(rest)?))
            })?;
            let twice = |(number, (name, _)): (usize, &(String, Value))| {
                object[..number].iter().any(|(other, _)| other == name)
            };
            (!object.iter().enumerate().any(twice)).then_some(Value::Object(object))
        }
        _ => number(rest),
    }
}

fn items<T>(
    rest: &mut &str,
    [open, close]: [&str; 2],
    item: impl Fn(&mut &str) -> Option<T>,
) -> Option<Vec<T>> {
    take(rest, open)?;
    let mut items = Vec::new();
    if take(rest, close).is_some() {
        return Some(items);
    }
    loop {
        items.push(item(rest)?);
        if take(rest, close).is_some() {
            return Some(items);
        }
        take(rest, ",")?;
    }
}

/// A text, whose escapes are as the command line writes them: `\"`, `\\` and `\uXXXX`.
fn text(rest: &mut &str) -> Option<String> {
    take(rest, "\"")?;
    let mut text = String::new();
    loop {
        let letter = rest.chars().next()?;
        *rest = &rest[letter.len_utf8()..];
        match letter {
            '"' => return Some(text),
            '\0'..='\x1F' => return None,
            '\\' if rest.starts_with('u') => {
                let code = u32::from_str_radix(rest.get(1..5)?, 16).ok()?;
                text.push(char::from_u32(code)?);
                *rest = &rest[5..];
            }
            '\\' => {
                let escaped = rest.chars().next().filter(|letter| "\"\\".contains(*letter))?;
                text.push(escaped);
                *rest = &rest[1..];
            }
            _ => text.push(letter),
        }
    }
}

/// A whole number, as JSON writes it.
fn number(rest: &mut &str) -> Option<Value> {
    let start = rest.trim_start();
    let digits = start.strip_prefix('-').unwrap_or(start);
    let length = digits.find(|letter: char| !letter.is_ascii_digit()).unwrap_or(digits.len());
    let is_plain = length == 1 || length > 1 && !digits.starts_with('0');
    let (number, behind) = start.split_at(start.len() - digits.len() + length);
    *rest = behind;
    is_plain.then(|| Value::Number(number.to_string()))
}
