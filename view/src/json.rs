//! Values as JSON text.

pub enum Json {
    Number(u64),
    /// true, false or null
    Word(&'static str),
    Text(String),
    List(Vec<Json>),
    Object(Vec<(&'static str, Json)>),
}

impl From<usize> for Json {
    fn from(number: usize) -> Self {
        Json::Number(number as u64)
    }
}

impl From<u8> for Json {
    fn from(number: u8) -> Self {
        Json::Number(number.into())
    }
}

impl From<&str> for Json {
    fn from(text: &str) -> Self {
        Json::Text(text.to_string())
    }
}

impl From<String> for Json {
    fn from(text: String) -> Self {
        Json::Text(text)
    }
}

impl<Value: Into<Json>> From<Vec<Value>> for Json {
    fn from(list: Vec<Value>) -> Self {
        Json::List(list.into_iter().map(Into::into).collect())
    }
}

impl std::fmt::Display for Json {
    fn fmt(&self, out: &mut std::fmt::Formatter) -> std::fmt::Result {
        match self {
            Json::Number(number) => write!(out, "{number}"),
            Json::Word(word) => write!(out, "{word}"),
            Json::Text(text) => write_text(text, out),
            Json::List(list) => write_all(out, '[', ']', list, |item, out| write!(out, "{item}")),
            Json::Object(fields) => {
                write_all(out, '{', '}', fields, |(name, value), out| write!(out, "\"{name}\":{value}"))
            }
        }
    }
}

type Out<'a, 'b> = &'a mut std::fmt::Formatter<'b>;

fn write_all<Item>(
    out: Out,
    open: char,
    close: char,
    items: &[Item],
    write: impl Fn(&Item, Out) -> std::fmt::Result,
) -> std::fmt::Result {
    write!(out, "{open}")?;
    for (place, item) in items.iter().enumerate() {
        if place > 0 {
            write!(out, ",")?;
        }
        write(item, out)?;
    }
    write!(out, "{close}")
}

fn write_text(text: &str, out: Out) -> std::fmt::Result {
    write!(out, "\"")?;
    for letter in text.chars() {
        match letter {
            '"' | '\\' => write!(out, "\\{letter}")?,
            // also what would end a script's text in a page
            '<' | '\0'..='\u{1F}' => write!(out, "\\u{:04X}", u32::from(letter))?,
            _ => write!(out, "{letter}")?,
        }
    }
    write!(out, "\"")
}
