use super::*;

fn text(text: &str) -> Value {
    Value::Text(text.to_string())
}

fn number(text: &str) -> Value {
    Value::Number(text.to_string())
}

/// The value of a member.
fn value(text: &str) -> Result<Value, String> {
    read(&format!("{{\"a\": {text}}}")).map(|mut members| members.remove(0).1)
}

#[test]
fn values() {
    assert_eq!(read(" { } \r"), Ok(vec![]));
    for plain in ["0", "-0", "12", "18446744073709551616", "1.50", "-1e+3", "0E-0"] {
        assert_eq!(value(plain), Ok(number(plain)));
    }
    let list = Value::List(vec![number("1"), text("..."), Value::List(vec![])]);
    assert_eq!(value("[1 ,\t\"...\", [ ]]"), Ok(list));
    assert_eq!(value("null"), Ok(Value::Null));
    assert_eq!(value("[true,false]"), Ok(Value::List(vec![Value::Bool, Value::Bool])));
    let members = vec![("b".to_string(), number("1")), (String::new(), Value::Null)];
    assert_eq!(value("{\"b\":1,\"\":null}"), Ok(Value::Object(members)));
}

#[test]
fn strings() {
    assert_eq!(value(r#""é\"\\\/\b\f\n\r\t""#), Ok(text("é\"\\/\u{8}\u{C}\n\r\t")));
    assert_eq!(value(r#""\u0041\u00e9\uD83D\uDE00""#), Ok(text("Aé😀")));
    for wrong in [
        r#"""#,
        r#""\x""#,
        r#""\u12""#,
        r#""\u+123""#,
        r#""\uD83D""#,
        r#""\uD83Dx""#,
        r#""\uD83D\n""#,
        r#""\uD83D\uD83D""#,
        r#""\uDE00""#,
        "\"\t\"",
        "\"\0\"",
        "'a'",
        r#""\u12é""#,
        r#""\"#,
    ] {
        assert!(value(wrong).is_err(), "{wrong}");
    }
}

#[test]
fn what_is_no_json() {
    for wrong in [
        "",
        "1",
        "[]",
        "\"a\"",
        "{",
        "{}}",
        "{} {}",
        "{\"a\"}",
        "{\"a\":}",
        "{\"a\":1,}",
        "{a:1}",
        "{,}",
        "{\"a\":1 \"b\":2}",
        "{\"a\":1}x",
        "\u{FEFF}{}",
        "\u{A0}{}",
        "{1:2}",
        "null",
        "é",
    ] {
        assert!(read(wrong).is_err(), "{wrong}");
    }
    for wrong in
        ["01", "-", "+1", "1.", ".5", "1e", "0x10", "NaN", "Infinity", "nul", "[1,]", "[,1]"]
    {
        assert!(value(wrong).is_err(), "{wrong}");
    }
    assert_eq!(read("{\"a\" 1}").unwrap_err(), "no JSON at byte 6; expected a colon");
}

#[test]
fn keys_are_different() {
    assert!(read("{\"a\": 1, \"\\u0061\": 1}").is_err());
    assert!(value("{\"b\": 1, \"b\": 1}").is_err());
    assert!(read("{\"a\": 1, \"A\": 1}").is_ok());
}

#[test]
fn depth_is_bounded() {
    let nested = |depth: usize| value(&("[".repeat(depth) + &"]".repeat(depth)));
    assert!(nested(DEEPEST).is_ok());
    assert!(nested(DEEPEST + 1).is_err());
    assert!(nested(100_000).is_err());
    assert!(read(&"{\"a\":".repeat(100_000)).is_err());
}
