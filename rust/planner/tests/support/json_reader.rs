//! A reader of JSON that takes nothing but JSON, one value a text.

use std::iter::Peekable;
use std::str::Chars;

#[derive(Clone, Debug, PartialEq)]
pub enum Value {
    Null,
    Flag(bool),
    Number(u64),
    Signed(i64),
    Text(String),
    List(Vec<Value>),
    Object(Vec<(String, Value)>),
}

impl Value {
    /// A member of an object.
    pub fn get(&self, name: &str) -> Option<&Value> {
        let Value::Object(members) = self else {
            return None;
        };
        let member = members.iter().find(|(known, _)| known == name);
        member.map(|(_, value)| value)
    }

    pub fn number(&self, name: &str) -> u64 {
        match self.get(name) {
            Some(Value::Number(number)) => *number,
            other => panic!("{name} is no number but {other:?}"),
        }
    }

    pub fn flag(&self, name: &str) -> bool {
        match self.get(name) {
            Some(Value::Flag(flag)) => *flag,
            other => panic!("{name} is no flag but {other:?}"),
        }
    }

    pub fn text(&self, name: &str) -> &str {
        match self.get(name) {
            Some(Value::Text(text)) => text,
            other => panic!("{name} is no text but {other:?}"),
        }
    }
}

/// Reads one value; none where the text is not JSON, names a member twice, or has a number that is
/// not whole or is above 2^64 - 1 or below -2^63.
pub fn read(text: &str) -> Option<Value> {
    let mut rest = Rest(text.chars().peekable());
    let value = rest.value()?;
    rest.blank();
    rest.0.next().is_none().then_some(value)
}

struct Rest<'a>(Peekable<Chars<'a>>);

impl Rest<'_> {
    fn blank(&mut self) {
        while self.0.next_if(|c| " \t\r\n".contains(*c)).is_some() {}
    }

    fn take(&mut self, wanted: char) -> Option<()> {
        self.blank();
        self.0.next_if_eq(&wanted).map(|_| ())
    }

    fn word(&mut self, word: &str, value: Value) -> Option<Value> {
        let mut letters = word.chars();
        letters
            .all(|letter| self.0.next_if_eq(&letter).is_some())
            .then_some(value)
    }

    fn value(&mut self) -> Option<Value> {
        self.blank();
        match self.0.peek()? {
            'n' => self.word("null", Value::Null),
            't' => self.word("true", Value::Flag(true)),
            'f' => self.word("false", Value::Flag(false)),
            '"' => self.string().map(Value::Text),
            '[' => self.row('[', ']', Rest::value).map(Value::List),
            '{' => self.object(),
            '-' => self.below_zero(),
            _ => self.number(),
        }
    }

    fn number(&mut self) -> Option<Value> {
        let mut digits = String::new();
        while let Some(digit) = self.0.next_if(char::is_ascii_digit) {
            digits.push(digit);
        }
        let led = digits.len() > 1 && digits.starts_with('0');
        digits.parse().ok().filter(|_| !led).map(Value::Number)
    }

    fn below_zero(&mut self) -> Option<Value> {
        self.take('-')?;
        match self.number()? {
            Value::Number(size) => 0i64.checked_sub_unsigned(size).map(Value::Signed),
            _ => None,
        }
    }

    fn string(&mut self) -> Option<String> {
        self.take('"')?;
        let mut text = String::new();
        loop {
            match self.0.next()? {
                '"' => return Some(text),
                '\\' => text.push(self.escaped()?),
                '\0'..='\u{1f}' => return None,
                character => text.push(character),
            }
        }
    }

    fn escaped(&mut self) -> Option<char> {
        Some(match self.0.next()? {
            character @ ('"' | '\\' | '/') => character,
            'b' => '\u{8}',
            'f' => '\u{c}',
            'n' => '\n',
            'r' => '\r',
            't' => '\t',
            'u' => {
                let digits: String = (0..4).map_while(|_| self.0.next()).collect();
                let hex = digits.len() == 4 && digits.bytes().all(|d| d.is_ascii_hexdigit());
                char::from_u32(u32::from_str_radix(&digits, 16).ok().filter(|_| hex)?)?
            }
            _ => return None,
        })
    }

    fn row<T>(
        &mut self,
        open: char,
        close: char,
        item: impl Fn(&mut Self) -> Option<T>,
    ) -> Option<Vec<T>> {
        self.take(open)?;
        let mut items = Vec::new();
        if self.take(close).is_some() {
            return Some(items);
        }
        loop {
            items.push(item(self)?);
            if self.take(close).is_some() {
                return Some(items);
            }
            self.take(',')?;
        }
    }

    fn object(&mut self) -> Option<Value> {
        let members = self.row('{', '}', |rest| {
            rest.blank();
            let name = rest.string()?;
            rest.take(':')?;
            Some((name, rest.value()?))
        })?;
        let twice = |(place, (name, _)): (usize, &(String, Value))| {
            members[..place].iter().any(|(known, _)| known == name)
        };
        let unique = !members.iter().enumerate().any(twice);
        unique.then_some(Value::Object(members))
    }
}

#[test]
fn takes_json_and_nothing_else() {
    let value = read(r#" {"a": [1, null, true], "b": "\u000a\"", "c": {}} "#).unwrap();
    assert_eq!(value.text("b"), "\n\"");
    assert!(matches!(value.get("a"), Some(Value::List(items)) if items.len() == 3));
    assert_eq!(read("-5"), Some(Value::Signed(-5)));
    let broken = [
        "",
        "{",
        "{}}",
        "[1,]",
        "{\"a\"}",
        "{\"a\": 1,}",
        "01",
        "-",
        "--1",
        "1 2",
        "nul",
        "'a'",
        "\"a",
        "\"\n\"",
        "{\"a\": 1, \"a\": 2}",
        "\"\\x\"",
        "\"\\u00g0\"",
        "{a: 1}",
        "[1 2]",
    ];
    for text in broken {
        assert_eq!(read(text), None, "{text}");
    }
}
