//! A small writer of JSON.

use std::fmt::{self, Display, Formatter, Write};

/// The members of an object, in their order.
pub type Members = Vec<(&'static str, Json)>;

pub enum Json {
    Null,
    Bool(bool),
    Number(i128),
    Text(String),
    /// Written with a line for each item; by `{:#}` in one line.
    List(Vec<Json>),
    /// Written in one line, in this order.
    Object(Members),
}

impl Display for Json {
    fn fmt(&self, f: &mut Formatter) -> fmt::Result {
        match self {
            Json::Null => f.write_str("null"),
            Json::Bool(value) => write!(f, "{value}"),
            Json::Number(value) => write!(f, "{value}"),
            Json::Text(text) => quoted(f, text),
            Json::List(items) => {
                let separator = if f.alternate() { ", " } else { ",\n " };
                between(f, ['[', ']'], separator, items, |f, item| item.fmt(f))
            }
            Json::Object(members) => between(f, ['{', '}'], ", ", members, |f, (key, value)| {
                quoted(f, key)?;
                f.write_str(": ")?;
                value.fmt(f)
            }),
        }
    }
}

fn between<T>(
    f: &mut Formatter,
    [open, close]: [char; 2],
    separator: &str,
    items: &[T],
    item: impl Fn(&mut Formatter, &T) -> fmt::Result,
) -> fmt::Result {
    f.write_char(open)?;
    for (number, value) in items.iter().enumerate() {
        if number > 0 {
            f.write_str(separator)?;
        }
        item(f, value)?;
    }
    f.write_char(close)
}

fn quoted(f: &mut Formatter, text: &str) -> fmt::Result {
    f.write_char('"')?;
    for letter in text.chars() {
        match letter {
            '"' | '\\' => write!(f, "\\{letter}")?,
            '\0'..='\x1F' => write!(f, "\\u{:04X}", u32::from(letter))?,
            _ => f.write_char(letter)?,
        }
    }
    f.write_char('"')
}

impl From<bool> for Json {
    fn from(value: bool) -> Json {
        Json::Bool(value)
    }
}

impl From<i128> for Json {
    fn from(value: i128) -> Json {
        Json::Number(value)
    }
}

impl From<u64> for Json {
    fn from(value: u64) -> Json {
        Json::Number(value.into())
    }
}

impl From<&str> for Json {
    fn from(text: &str) -> Json {
        Json::Text(text.to_string())
    }
}

impl From<String> for Json {
    fn from(text: String) -> Json {
        Json::Text(text)
    }
}

impl<T: Into<Json>> From<Option<T>> for Json {
    fn from(value: Option<T>) -> Json {
        value.map_or(Json::Null, T::into)
    }
}

#[cfg(test)]
mod tests {
    use super::*;

    #[test]
    fn values() {
        let list = Json::List(vec![None::<u64>.into(), true.into(), (-2i128).into(), "a".into()]);
        let object = Json::Object(vec![("list", list), ("none", Json::Object(vec![]))]);
        assert_eq!(object.to_string(), "{\"list\": [null,\n true,\n -2,\n \"a\"], \"none\": {}}");
        let line = "{\"list\": [null, true, -2, \"a\"], \"none\": {}}";
        assert_eq!(format!("{object:#}"), line);
    }

    #[test]
    fn letters() {
        assert_eq!(Json::from("\"\\\n\u{1F}é").to_string(), r#""\"\\\u000A\u001Fé""#);
    }
}
