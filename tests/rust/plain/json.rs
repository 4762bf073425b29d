//! Section T of the rules: a text of JSON, read into a tree.

use std::borrow::Cow;

const MOST_LEVELS: usize = 12;

pub enum Json<'a> {
    Null,
    Boolean(bool),
    /// A number that is an integer (T10).
    Integer(i64),
    /// Any other number, which is never an integer (T11).
    Number,
    /// A string without escapes is a part of the text.
    String(Cow<'a, str>),
    Array(Vec<Json<'a>>),
    Object(Object<'a>),
}

impl<'a> Json<'a> {
    pub fn as_str(&self) -> Option<&str> {
        match self {
            Json::String(text) => Some(text),
            _ => None,
        }
    }

    pub fn as_bool(&self) -> Option<bool> {
        match self {
            Json::Boolean(truth) => Some(*truth),
            _ => None,
        }
    }

    pub fn as_integer(&self) -> Option<i64> {
        match self {
            Json::Integer(number) => Some(*number),
            _ => None,
        }
    }

    pub fn as_array(&self) -> Option<&[Json<'a>]> {
        match self {
            Json::Array(items) => Some(items),
            _ => None,
        }
    }

    pub fn as_object(&self) -> Option<&Object<'a>> {
        match self {
            Json::Object(object) => Some(object),
            _ => None,
        }
    }
}

/// The members of an object in the text's order, names given twice too.
pub struct Object<'a> {
    members: Vec<(Cow<'a, str>, Json<'a>)>,
}

impl<'a> Object<'a> {
    /// The value of a name: the last one counts (T26).
    pub fn get(&self, name: &str) -> Option<&Json<'a>> {
        self.members
            .iter()
            .rev()
            .find(|(other, _)| other == name)
            .map(|(_, value)| value)
    }

    pub fn names(&self) -> impl Iterator<Item = &str> {
        self.members.iter().map(|(name, _)| name.as_ref())
    }

    pub fn has_only(&self, names: &[&str]) -> bool {
        self.names().all(|name| names.contains(&name))
    }

    /// The members that count, each at the last place of its name (S10).
    pub fn counting(&self) -> Vec<(&str, &Json<'a>)> {
        let mut found: Vec<(&str, &Json)> = Vec::with_capacity(self.members.len());
        for (name, value) in self.members.iter().rev() {
            if !found.iter().any(|(other, _)| other == name) {
                found.push((name, value));
            }
        }
        found.reverse();
        found
    }
}

/// The value that a text is, or None where it is not JSON or too deep.
pub fn parse(text: &[u8]) -> Option<Json<'_>> {
    let text = std::str::from_utf8(text).ok()?;
    let mut parser = Parser { text, at: 0 };
    let value = parser.value(MOST_LEVELS)?;
    parser.skip_space();
    (parser.at == text.len()).then_some(value)
}

struct Parser<'a> {
    text: &'a str,
    at: usize,
}

impl<'a> Parser<'a> {
    fn peek(&self) -> Option<u8> {
        self.text.as_bytes().get(self.at).copied()
    }

    /// Passes a byte if it is the next one, and says whether it was.
    fn take(&mut self, byte: u8) -> bool {
        let found = self.peek() == Some(byte);
        if found {
            self.at += 1;
        }
        found
    }

    fn expect(&mut self, byte: u8) -> Option<()> {
        self.take(byte).then_some(())
    }

    fn skip_space(&mut self) {
        while matches!(self.peek(), Some(b' ' | b'\t' | b'\n' | b'\r')) {
            self.at += 1;
        }
    }

    fn value(&mut self, levels: usize) -> Option<Json<'a>> {
        self.skip_space();
        match self.peek()? {
            b'{' => self.object(levels.checked_sub(1)?).map(Json::Object),
            b'[' => self.array(levels.checked_sub(1)?).map(Json::Array),
            b'"' => self.string().map(Json::String),
            b'-' | b'0'..=b'9' => self.number(),
            b'n' => self.word("null", Json::Null),
            b't' => self.word("true", Json::Boolean(true)),
            b'f' => self.word("false", Json::Boolean(false)),
            _ => None,
        }
    }

    fn array(&mut self, levels: usize) -> Option<Vec<Json<'a>>> {
        let mut items = Vec::new();
        self.expect(b'[')?;
        self.skip_space();
        if self.take(b']') {
            return Some(items);
        }
        loop {
            items.push(self.value(levels)?);
            self.skip_space();
            if self.take(b']') {
                return Some(items);
            }
            self.expect(b',')?;
        }
    }

    fn object(&mut self, levels: usize) -> Option<Object<'a>> {
        let mut members = Vec::new();
        self.expect(b'{')?;
        self.skip_space();
        if self.take(b'}') {
            return Some(Object { members });
        }
        loop {
            self.skip_space();
            let name = self.string()?;
            self.skip_space();
            self.expect(b':')?;
            members.push((name, self.value(levels)?));
            self.skip_space();
            if self.take(b'}') {
                return Some(Object { members });
            }
            self.expect(b',')?;
        }
    }

    fn word(&mut self, word: &str, value: Json<'a>) -> Option<Json<'a>> {
        self.text[self.at..].starts_with(word).then(|| {
            self.at += word.len();
            value
        })
    }

    /// T8 to T11.
    fn number(&mut self) -> Option<Json<'a>> {
        let start = self.at;
        let mut whole = true;
        self.take(b'-');
        if !self.take(b'0') {
            self.digits()?;
        }
        if self.take(b'.') {
            self.digits()?;
            whole = false;
        }
        if self.take(b'e') || self.take(b'E') {
            if !self.take(b'+') {
                self.take(b'-');
            }
            self.digits()?;
            whole = false;
        }
        let written = &self.text[start..self.at];
        Some(match written.parse() {
            Ok(integer) if whole => Json::Integer(integer),
            _ => Json::Number,
        })
    }

    /// One digit or more.
    fn digits(&mut self) -> Option<()> {
        let start = self.at;
        while matches!(self.peek(), Some(b'0'..=b'9')) {
            self.at += 1;
        }
        (self.at > start).then_some(())
    }

    /// T12 to T21: a string, its escapes decoded.
    fn string(&mut self) -> Option<Cow<'a, str>> {
        self.expect(b'"')?;
        let mut decoded = Cow::Borrowed(self.plain_part());
        while !self.take(b'"') {
            self.expect(b'\\')?;
            let text = decoded.to_mut();
            text.push(self.escape()?);
            text.push_str(self.plain_part());
        }
        Some(decoded)
    }

    /// What comes before the next quote, backslash or control character.
    fn plain_part(&mut self) -> &'a str {
        let start = self.at;
        while matches!(self.peek(), Some(byte) if byte >= b' ' && byte != b'"' && byte != b'\\') {
            self.at += 1;
        }
        &self.text[start..self.at]
    }

    fn character(&mut self) -> Option<char> {
        let character = self.text[self.at..].chars().next()?;
        self.at += character.len_utf8();
        Some(character)
    }

    fn escape(&mut self) -> Option<char> {
        match self.character()? {
            same @ ('"' | '\\' | '/') => Some(same),
            'b' => Some('\x08'),
            'f' => Some('\x0c'),
            'n' => Some('\n'),
            'r' => Some('\r'),
            't' => Some('\t'),
            'u' => self.unicode_escape(),
            _ => None,
        }
    }

    /// T17 to T20; half of a pair alone is no char.
    fn unicode_escape(&mut self) -> Option<char> {
        let mut code = self.four_digits()?;
        if (0xd800..0xdc00).contains(&code) {
            self.expect(b'\\')?;
            self.expect(b'u')?;
            let second = self.four_digits()?;
            if !(0xdc00..0xe000).contains(&second) {
                return None;
            }
            code = 0x10000 + (code - 0xd800) * 0x400 + (second - 0xdc00);
        }
        char::from_u32(code).filter(|character| *character != '\0')
    }

    fn four_digits(&mut self) -> Option<u32> {
        let digits = self.text.get(self.at..self.at + 4)?;
        if !digits.bytes().all(|byte| byte.is_ascii_hexdigit()) {
            return None;
        }
        self.at += 4;
        u32::from_str_radix(digits, 16).ok()
    }
}
