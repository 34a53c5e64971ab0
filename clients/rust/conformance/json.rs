//! Values of JSON.
use std::collections::BTreeMap;
use std::fmt::{self, Write};

/// A value. A number keeps its digits.
#[derive(Clone, Debug, PartialEq)]
pub enum Json {
    Null,
    Bool(bool),
    Number(String),
    Text(String),
    List(Vec<Json>),
    Object(BTreeMap<String, Json>),
}

impl Json {
    /// An object of these fields.
    pub fn object<const N: usize>(fields: [(&str, Json); N]) -> Json {
        Json::Object(fields.map(|(name, it)| (name.into(), it)).into())
    }

    /// An integer, as the kit's lines have it.
    pub fn integer(number: impl fmt::Display) -> Json {
        Json::Text(number.to_string())
    }

    pub fn text(text: &str) -> Json {
        Json::Text(text.into())
    }

    /// The field of an object.
    pub fn get(&self, name: &str) -> Option<&Json> {
        match self {
            Json::Object(fields) => fields.get(name),
            _ => None,
        }
    }

    /// A text, or "" of another value.
    pub fn as_text(&self) -> &str {
        match self {
            Json::Text(text) => text,
            _ => "",
        }
    }

    pub fn as_list(&self) -> Option<&[Json]> {
        match self {
            Json::List(items) => Some(items),
            _ => None,
        }
    }

    /// The text of a field, or "".
    pub fn text_of(&self, name: &str) -> &str {
        self.get(name).map_or("", Json::as_text)
    }
}

fn write_text(f: &mut fmt::Formatter<'_>, text: &str) -> fmt::Result {
    f.write_char('"')?;
    for it in text.chars() {
        match it {
            '"' | '\\' => write!(f, "\\{it}")?,
            it if it < ' ' => write!(f, "\\u{:04x}", it as u32)?,
            it => f.write_char(it)?,
        }
    }
    f.write_char('"')
}

impl fmt::Display for Json {
    fn fmt(&self, f: &mut fmt::Formatter<'_>) -> fmt::Result {
        match self {
            Json::Null => f.write_str("null"),
            Json::Bool(it) => write!(f, "{it}"),
            Json::Number(digits) => f.write_str(digits),
            Json::Text(text) => write_text(f, text),
            Json::List(items) => {
                f.write_char('[')?;
                for (place, it) in items.iter().enumerate() {
                    write!(f, "{}{it}", if place == 0 { "" } else { "," })?;
                }
                f.write_char(']')
            }
            Json::Object(fields) => {
                f.write_char('{')?;
                for (place, (name, it)) in fields.iter().enumerate() {
                    f.write_str(if place == 0 { "" } else { "," })?;
                    write_text(f, name)?;
                    write!(f, ":{it}")?;
                }
                f.write_char('}')
            }
        }
    }
}

/// Reads a line of the kit, which is right JSON.
pub fn read(text: &str) -> Option<Json> {
    let mut reader = Reader {
        rest: text.chars().collect(),
        at: 0,
    };
    reader.value()
}

struct Reader {
    rest: Vec<char>,
    at: usize,
}

impl Reader {
    fn peek(&mut self) -> Option<char> {
        while self.rest.get(self.at).is_some_and(|it| it.is_whitespace()) {
            self.at += 1;
        }
        self.rest.get(self.at).copied()
    }

    fn takes(&mut self, wanted: char) -> bool {
        let is_there = self.peek() == Some(wanted);
        self.at += usize::from(is_there);
        is_there
    }

    fn value(&mut self) -> Option<Json> {
        match self.peek()? {
            '"' => self.string().map(Json::Text),
            '[' => self.list(),
            '{' => self.object(),
            _ => self.word(),
        }
    }

    fn word(&mut self) -> Option<Json> {
        let is_part = |it: &char| it.is_ascii_alphanumeric() || "+-.".contains(*it);
        let word: String = self.rest[self.at..]
            .iter()
            .take_while(|it| is_part(it))
            .collect();
        self.at += word.len();
        match word.as_str() {
            "null" => Some(Json::Null),
            "true" => Some(Json::Bool(true)),
            "false" => Some(Json::Bool(false)),
            "" => None,
            _ => Some(Json::Number(word)),
        }
    }

    fn list(&mut self) -> Option<Json> {
        let mut items = Vec::new();
        self.at += 1;
        while !self.takes(']') {
            items.push(self.value()?);
            self.takes(',');
        }
        Some(Json::List(items))
    }

    fn object(&mut self) -> Option<Json> {
        let mut fields = BTreeMap::new();
        self.at += 1;
        while !self.takes('}') {
            self.peek();
            let name = self.string()?;
            self.takes(':').then_some(())?;
            fields.insert(name, self.value()?);
            self.takes(',');
        }
        Some(Json::Object(fields))
    }

    fn unit(&mut self) -> Option<u32> {
        let digits: String = self.rest.get(self.at..self.at + 4)?.iter().collect();
        self.at += 4;
        u32::from_str_radix(&digits, 16).ok()
    }

    fn escaped(&mut self) -> Option<char> {
        let high = self.unit()?;
        if !(0xd800..0xdc00).contains(&high) {
            return char::from_u32(high);
        }
        self.at += 2; // the \u of the second half
        let low = self.unit()?;
        char::from_u32(0x10000 + ((high - 0xd800) << 10) + (low.checked_sub(0xdc00)?))
    }

    fn string(&mut self) -> Option<String> {
        let mut text = String::new();
        self.at += 1;
        loop {
            let next = *self.rest.get(self.at)?;
            self.at += 1;
            match next {
                '"' => return Some(text),
                '\\' => {
                    let mark = *self.rest.get(self.at)?;
                    self.at += 1;
                    text.push(match mark {
                        'u' => self.escaped()?,
                        'n' => '\n',
                        't' => '\t',
                        'r' => '\r',
                        'b' => '\u{8}',
                        'f' => '\u{c}',
                        it => it,
                    });
                }
                it => text.push(it),
            }
        }
    }
}
