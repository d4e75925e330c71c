//! A strict reader of JSON: one object with different keys, and nothing behind it.

use std::collections::BTreeSet;

/// So deep may lists and objects stand in each other.
const DEEPEST: usize = 8;

#[derive(Debug, PartialEq, Eq)]
pub enum Value {
    Null,
    Bool,
    /// A number as it is written.
    Number(String),
    Text(String),
    List(Vec<Value>),
    Object(Vec<(String, Value)>),
}

impl Value {
    /// What it is, for messages.
    pub fn kind(&self) -> &'static str {
        match self {
            Value::Null => "null",
            Value::Bool => "true or false",
            Value::Number(_) => "a number",
            Value::Text(_) => "a string",
            Value::List(_) => "a list",
            Value::Object(_) => "an object",
        }
    }
}

/// The members of the object that a text is, or what is wrong with the text.
pub fn read(text: &str) -> Result<Vec<(String, Value)>, String> {
    let mut reader = Reader { text, at: 0 };
    let value = reader.value(0)?;
    reader.space();
    match value {
        _ if reader.at < text.len() => Err(reader.expected("nothing behind the object")),
        Value::Object(members) => Ok(members),
        other => Err(format!("{}; expected an object", other.kind())),
    }
}

struct Reader<'a> {
    text: &'a str,
    /// The byte that comes next.
    at: usize,
}

impl<'a> Reader<'a> {
    fn next(&self) -> Option<u8> {
        self.text.as_bytes().get(self.at).copied()
    }

    fn space(&mut self) {
        while matches!(self.next(), Some(b' ' | b'\t' | b'\r' | b'\n')) {
            self.at += 1;
        }
    }

    /// Takes a token, if it comes next.
    fn takes(&mut self, token: &str) -> bool {
        let comes = self.text.as_bytes()[self.at..].starts_with(token.as_bytes());
        self.at += if comes { token.len() } else { 0 };
        comes
    }

    fn expected(&self, expected: &str) -> String {
        format!("no JSON at byte {}; expected {expected}", self.at + 1)
    }

    fn value(&mut self, depth: usize) -> Result<Value, String> {
        self.space();
        if depth > DEEPEST {
            return Err(self.expected("no more lists and objects in each other"));
        }
        match self.next() {
            Some(b'{') => self.object(depth),
            Some(b'[') => self.list(depth),
            Some(b'"') => self.string().map(Value::Text),
            Some(b'-' | b'0'..=b'9') => self.number(),
            _ if self.takes("null") => Ok(Value::Null),
            _ if self.takes("true") || self.takes("false") => Ok(Value::Bool),
            _ => Err(self.expected("a value")),
        }
    }

    fn list(&mut self, depth: usize) -> Result<Value, String> {
        let mut items = Vec::new();
        self.between("[", "]", |reader| {
            items.push(reader.value(depth + 1)?);
            Ok(())
        })?;
        Ok(Value::List(items))
    }

    fn object(&mut self, depth: usize) -> Result<Value, String> {
        let (mut members, mut keys) = (Vec::new(), BTreeSet::new());
        self.between("{", "}", |reader| {
            let start = reader.at;
            let key = reader.string()?;
            if !keys.insert(key.clone()) {
                return Err(Reader { at: start, ..*reader }.expected("no key twice"));
            }
            reader.space();
            if !reader.takes(":") {
                return Err(reader.expected("a colon"));
            }
            members.push((key, reader.value(depth + 1)?));
            Ok(())
        })?;
        Ok(Value::Object(members))
    }

    /// Items between two tokens, with commas between them.
    fn between(
        &mut self,
        open: &str,
        close: &str,
        mut item: impl FnMut(&mut Reader<'a>) -> Result<(), String>,
    ) -> Result<(), String> {
        self.takes(open);
        self.space();
        if self.takes(close) {
            return Ok(());
        }
        loop {
            self.space();
            item(self)?;
            self.space();
            if self.takes(close) {
                return Ok(());
            }
            if !self.takes(",") {
                return Err(self.expected(&format!("a comma or {close}")));
            }
        }
    }

    fn string(&mut self) -> Result<String, String> {
        if !self.takes("\"") {
            return Err(self.expected("a string"));
        }
        let mut string = String::new();
        loop {
            let plain = |byte: &u8| *byte >= 0x20 && *byte != b'"' && *byte != b'\\';
            let rest = &self.text.as_bytes()[self.at..];
            let length = rest.iter().take_while(|byte| plain(byte)).count();
            string += &self.text[self.at..self.at + length];
            self.at += length;
            match self.next() {
                Some(b'"') => break,
                Some(b'\\') => string.push(self.escape()?),
                _ => return Err(self.expected("the end of the string")),
            }
        }
        self.at += 1;
        Ok(string)
    }

    fn escape(&mut self) -> Result<char, String> {
        self.at += 1;
        let letter = match self.next() {
            Some(b'u') => return self.code(),
            Some(b'b') => '\u{8}',
            Some(b'f') => '\u{C}',
            Some(b'n') => '\n',
            Some(b'r') => '\r',
            Some(b't') => '\t',
            Some(letter @ (b'"' | b'\\' | b'/')) => char::from(letter),
            _ => return Err(self.expected("an escape as JSON has them")),
        };
        self.at += 1;
        Ok(letter)
    }

    /// A letter by its number, or by the two of a pair.
    fn code(&mut self) -> Result<char, String> {
        let start = Reader { ..*self };
        let wrong = || start.expected("u and four digits that are a letter, or a pair of these");
        let high = self.unit().ok_or_else(wrong)?;
        if !(0xD800..0xDC00).contains(&high) {
            return char::from_u32(high).ok_or_else(wrong);
        }
        let low = if self.takes("\\") { self.unit() } else { None };
        let low = low.filter(|low| (0xDC00..0xE000).contains(low)).ok_or_else(wrong)?;
        char::from_u32(0x10000 + ((high - 0xD800) << 10) + (low - 0xDC00)).ok_or_else(wrong)
    }

    fn unit(&mut self) -> Option<u32> {
        let digits = self.text.get(self.at..self.at + 5)?.strip_prefix('u')?;
        let plain = digits.bytes().all(|digit| digit.is_ascii_hexdigit());
        self.at += 5;
        u32::from_str_radix(digits, 16).ok().filter(|_| plain)
    }

    fn number(&mut self) -> Result<Value, String> {
        let start = self.at;
        self.takes("-");
        let zero = self.next() == Some(b'0');
        let whole = self.digits();
        let mut right = whole == 1 || whole > 1 && !zero;
        if right && self.takes(".") {
            right = self.digits() > 0;
        }
        if right && (self.takes("e") || self.takes("E")) {
            let _sign = self.takes("+") || self.takes("-");
            right = self.digits() > 0;
        }
        match right {
            true => Ok(Value::Number(self.text[start..self.at].to_string())),
            false => Err(Reader { at: start, ..*self }.expected("a number as JSON has them")),
        }
    }

    /// Passes over digits, and counts them.
    fn digits(&mut self) -> usize {
        let rest = &self.text.as_bytes()[self.at..];
        let count = rest.iter().take_while(|byte| byte.is_ascii_digit()).count();
        self.at += count;
        count
    }
}

#[cfg(test)]
mod tests;
