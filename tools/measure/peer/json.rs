//! JSON texts as trees that borrow their strings from the text.
use std::borrow::Cow;

/// What is wrong, by the number of the document fault.
pub type Result<T> = std::result::Result<T, u32>;

pub const NOT_JSON: u32 = 1;
pub const SHAPE: u32 = 2;
const MOST_NESTED: u32 = 127;

pub enum Json<'a> {
    Null,
    Bool(bool),
    Whole(i64),
    OtherNumber,
    Text(Cow<'a, str>),
    List(Vec<Json<'a>>),
    Object(Vec<(Cow<'a, str>, Json<'a>)>),
}

impl<'a> Json<'a> {
    pub fn get(&self, key: &str) -> Result<&Json<'a>> {
        match self {
            Json::Object(members) => members
                .iter()
                .rev()
                .find(|it| it.0 == key)
                .map(|it| &it.1)
                .ok_or(SHAPE),
            _ => Err(SHAPE),
        }
    }

    pub fn list(&self) -> Result<&[Json<'a>]> {
        match self {
            Json::List(items) => Ok(items),
            _ => Err(SHAPE),
        }
    }

    pub fn text(&self) -> Result<&str> {
        match self {
            Json::Text(text) => Ok(text),
            _ => Err(SHAPE),
        }
    }

    pub fn truth(&self) -> Result<bool> {
        match self {
            Json::Bool(truth) => Ok(*truth),
            _ => Err(SHAPE),
        }
    }
}

/// The tree of a whole text.
pub fn read(bytes: &[u8]) -> Result<Json<'_>> {
    let mut reader = Reader {
        bytes,
        at: 0,
        nested: 0,
    };
    let tree = reader.value()?;
    reader.skip_space();
    if reader.at == bytes.len() {
        Ok(tree)
    } else {
        Err(NOT_JSON)
    }
}

struct Reader<'a> {
    bytes: &'a [u8],
    at: usize,
    nested: u32,
}

impl<'a> Reader<'a> {
    #[inline]
    fn skip_space(&mut self) {
        while self.at < self.bytes.len()
            && matches!(self.bytes[self.at], b' ' | b'\n' | b'\r' | b'\t')
        {
            self.at += 1;
        }
    }

    #[inline]
    fn next(&mut self) -> Result<u8> {
        self.skip_space();
        self.bytes.get(self.at).copied().ok_or(NOT_JSON)
    }

    fn value(&mut self) -> Result<Json<'a>> {
        match self.next()? {
            b'[' => self.list(),
            b'{' => self.object(),
            b'"' => Ok(Json::Text(self.string()?)),
            b't' => self.word(b"true", Json::Bool(true)),
            b'f' => self.word(b"false", Json::Bool(false)),
            b'n' => self.word(b"null", Json::Null),
            b'-' | b'0'..=b'9' => self.number(),
            _ => Err(NOT_JSON),
        }
    }

    fn word(&mut self, word: &[u8], value: Json<'a>) -> Result<Json<'a>> {
        if !self.bytes[self.at..].starts_with(word) {
            return Err(NOT_JSON);
        }
        self.at += word.len();
        Ok(value)
    }

    /// Steps into a list or an object; true where it is empty.
    fn enter(&mut self, end: u8) -> Result<bool> {
        self.at += 1;
        self.nested += 1;
        if self.nested > MOST_NESTED {
            return Err(NOT_JSON);
        }
        let is_empty = self.next()? == end;
        if is_empty {
            self.leave();
        }
        Ok(is_empty)
    }

    fn leave(&mut self) {
        self.at += 1;
        self.nested -= 1;
    }

    /// Whether another part follows.
    fn goes_on(&mut self, end: u8) -> Result<bool> {
        let next = self.next()?;
        if next == end {
            self.leave();
        } else if next == b',' {
            self.at += 1;
        } else {
            return Err(NOT_JSON);
        }
        Ok(next == b',')
    }

    fn list(&mut self) -> Result<Json<'a>> {
        let mut items = vec![];
        if !self.enter(b']')? {
            loop {
                items.push(self.value()?);
                if !self.goes_on(b']')? {
                    break;
                }
            }
        }
        Ok(Json::List(items))
    }

    fn object(&mut self) -> Result<Json<'a>> {
        let mut members = vec![];
        if !self.enter(b'}')? {
            loop {
                if self.next()? != b'"' {
                    return Err(NOT_JSON);
                }
                let key = self.string()?;
                if self.next()? != b':' {
                    return Err(NOT_JSON);
                }
                self.at += 1;
                members.push((key, self.value()?));
                if !self.goes_on(b'}')? {
                    break;
                }
            }
        }
        Ok(Json::Object(members))
    }

    fn string(&mut self) -> Result<Cow<'a, str>> {
        self.at += 1;
        let begin = self.at;
        loop {
            match self.bytes.get(self.at) {
                Some(b'"') => break,
                Some(b'\\') => return self.string_with_escapes(begin),
                Some(byte) if *byte >= b' ' => self.at += 1,
                _ => return Err(NOT_JSON),
            }
        }
        let text = std::str::from_utf8(&self.bytes[begin..self.at]).map_err(|_| NOT_JSON)?;
        self.at += 1;
        Ok(Cow::Borrowed(text))
    }

    fn string_with_escapes(&mut self, begin: usize) -> Result<Cow<'a, str>> {
        let mut text = self.bytes[begin..self.at].to_vec();
        loop {
            let byte = *self.bytes.get(self.at).ok_or(NOT_JSON)?;
            self.at += 1;
            match byte {
                b'"' => {
                    return String::from_utf8(text)
                        .map(Cow::Owned)
                        .map_err(|_| NOT_JSON)
                }
                b'\\' => self.escape(&mut text)?,
                byte if byte >= b' ' => text.push(byte),
                _ => return Err(NOT_JSON),
            }
        }
    }

    fn escape(&mut self, text: &mut Vec<u8>) -> Result<()> {
        let byte = *self.bytes.get(self.at).ok_or(NOT_JSON)?;
        self.at += 1;
        match byte {
            b'"' | b'\\' | b'/' => text.push(byte),
            b'b' => text.push(8),
            b'f' => text.push(12),
            b'n' => text.push(b'\n'),
            b'r' => text.push(b'\r'),
            b't' => text.push(b'\t'),
            b'u' => text.extend_from_slice(self.character()?.encode_utf8(&mut [0; 4]).as_bytes()),
            _ => return Err(NOT_JSON),
        }
        Ok(())
    }

    fn character(&mut self) -> Result<char> {
        let mut code = self.hex()?;
        if (0xd800..0xdc00).contains(&code) && self.bytes[self.at..].starts_with(b"\\u") {
            self.at += 2;
            code = 0x10000 + ((code - 0xd800) << 10) + self.hex()?.wrapping_sub(0xdc00);
        }
        char::from_u32(code).ok_or(NOT_JSON)
    }

    fn hex(&mut self) -> Result<u32> {
        let digits = self.bytes.get(self.at..self.at + 4).ok_or(NOT_JSON)?;
        self.at += 4;
        u32::from_str_radix(std::str::from_utf8(digits).map_err(|_| NOT_JSON)?, 16)
            .map_err(|_| NOT_JSON)
    }

    fn number(&mut self) -> Result<Json<'a>> {
        let is_negative = self.bytes[self.at] == b'-';
        self.at += is_negative as usize;
        let (begin, mut value) = (self.at, Some(0i64));
        while let Some(byte @ b'0'..=b'9') = self.bytes.get(self.at) {
            let digit = (byte - b'0') as i64;
            let tens = value.and_then(|it| it.checked_mul(10));
            value = tens.and_then(|it| {
                if is_negative {
                    it.checked_sub(digit)
                } else {
                    it.checked_add(digit)
                }
            });
            self.at += 1;
        }
        if self.at == begin || (self.bytes[begin] == b'0' && self.at > begin + 1) {
            return Err(NOT_JSON);
        }
        if matches!(self.bytes.get(self.at), Some(b'.' | b'e' | b'E')) {
            value = None;
            while matches!(
                self.bytes.get(self.at),
                Some(b'0'..=b'9' | b'.' | b'e' | b'E' | b'+' | b'-')
            ) {
                self.at += 1;
            }
        }
        Ok(value.map_or(Json::OtherNumber, Json::Whole))
    }
}
