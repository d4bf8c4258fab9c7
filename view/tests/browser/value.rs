//! JSON as the browser sends it, read.

use std::collections::BTreeMap;

#[derive(Clone, Debug, PartialEq)]
pub enum Value {
    Null,
    Bool(bool),
    Number(f64),
    Text(String),
    List(Vec<Value>),
    Object(BTreeMap<String, Value>),
}

impl Value {
    pub fn read(text: &str) -> Value {
        Reader { bytes: text.as_bytes(), at: 0 }.value()
    }

    /// The value at a path such as "result.value"; null where there is none.
    pub fn at(&self, path: &str) -> &Value {
        path.split('.').fold(self, |value, name| match value {
            Value::Object(fields) => fields.get(name).unwrap_or(&Value::Null),
            _ => &Value::Null,
        })
    }

    pub fn text(&self) -> &str {
        match self {
            Value::Text(text) => text,
            _ => "",
        }
    }

    pub fn number(&self) -> f64 {
        match self {
            Value::Number(number) => *number,
            _ => f64::NAN,
        }
    }
}

struct Reader<'a> {
    bytes: &'a [u8],
    at: usize,
}

impl Reader<'_> {
    fn next(&mut self) -> u8 {
        while self.bytes[self.at].is_ascii_whitespace() {
            self.at += 1;
        }
        self.bytes[self.at]
    }

    fn value(&mut self) -> Value {
        match self.next() {
            b'{' => self.object(),
            b'[' => Value::List(self.items(b']', Reader::value)),
            b'"' => Value::Text(self.string()),
            b't' => self.word(4, Value::Bool(true)),
            b'f' => self.word(5, Value::Bool(false)),
            b'n' => self.word(4, Value::Null),
            _ => self.number(),
        }
    }

    fn word(&mut self, length: usize, value: Value) -> Value {
        self.at += length;
        value
    }

    fn number(&mut self) -> Value {
        let from = self.at;
        while self.at < self.bytes.len() && b"+-.0123456789eE".contains(&self.bytes[self.at]) {
            self.at += 1;
        }
        let text = std::str::from_utf8(&self.bytes[from..self.at]).unwrap();
        Value::Number(text.parse().unwrap_or_else(|_| panic!("a number, not {text:?}")))
    }

    fn object(&mut self) -> Value {
        let fields = self.items(b'}', |reader| {
            reader.next();
            let name = reader.string();
            assert_eq!(reader.next(), b':');
            reader.at += 1;
            (name, reader.value())
        });
        Value::Object(fields.into_iter().collect())
    }

    fn items<Item>(&mut self, end: u8, item: impl Fn(&mut Self) -> Item) -> Vec<Item> {
        self.at += 1;
        let mut items = Vec::new();
        while self.next() != end {
            items.push(item(self));
            if self.next() == b',' {
                self.at += 1;
            }
        }
        self.at += 1;
        items
    }

    fn string(&mut self) -> String {
        self.at += 1;
        let mut units: Vec<u16> = Vec::new();
        loop {
            let rest = std::str::from_utf8(&self.bytes[self.at..]).unwrap_or_default();
            let plain = rest.find(['"', '\\']).expect("an end");
            units.extend(rest[..plain].encode_utf16());
            self.at += plain + 1;
            if self.bytes[self.at - 1] == b'"' {
                return String::from_utf16_lossy(&units);
            }
            units.push(self.escaped());
        }
    }

    fn escaped(&mut self) -> u16 {
        let letter = self.bytes[self.at];
        self.at += 1;
        match letter {
            b'u' => {
                let digits = std::str::from_utf8(&self.bytes[self.at..self.at + 4]).unwrap();
                self.at += 4;
                u16::from_str_radix(digits, 16).unwrap()
            }
            b'n' => 10,
            b't' => 9,
            b'r' => 13,
            b'b' => 8,
            b'f' => 12,
            other => other.into(),
        }
    }
}
