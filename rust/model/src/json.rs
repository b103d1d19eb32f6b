//! JSON texts by RFC 8259, a function for each of its productions under the RFC's name, and UTF-8 by
//! RFC 3629. What stands in quotes is theirs.
//!
//! A production takes what it can from the front of the bytes that are left, and gives none where
//! they don't begin with it. None is final: no production is tried twice.

/// "A JSON value MUST be an object, array, number, or string, or one of the following three literal
/// names: false null true". Names, strings and numbers are kept as they are written.
#[derive(Clone, PartialEq, Eq, Debug)]
pub enum Value {
    False,
    Null,
    True,
    Object(Vec<Member>),
    Array(Vec<Value>),
    Number(Vec<u8>),
    /// What stands between the quotation marks.
    String(Vec<u8>),
}

/// "member = string name-separator value". The name is what stands between the quotation marks.
#[derive(Clone, PartialEq, Eq, Debug)]
pub struct Member {
    pub name: Vec<u8>,
    pub value: Value,
}

/// "JSON-text = ws value ws", where at most so many objects and arrays stand inside each other. None
/// if the bytes are no such text in UTF-8.
pub fn text(bytes: &[u8], depth: usize) -> Option<Value> {
    if !is_utf8(bytes) {
        return None;
    }
    let mut left = Left(bytes);
    left.ws();
    let value = left.value(depth)?;
    left.ws();
    left.0.is_empty().then_some(value)
}

/// The bytes that no production has taken yet.
struct Left<'a>(&'a [u8]);

impl Left<'_> {
    /// The next byte, which stays.
    fn next(&self) -> Option<u8> {
        self.0.first().copied()
    }

    /// Takes the next byte if it is one of these.
    fn take(&mut self, of: &[u8]) -> Option<u8> {
        let byte = self.next().filter(|byte| of.contains(byte))?;
        self.0 = &self.0[1..];
        Some(byte)
    }

    /// Takes the bytes of a literal name.
    fn literal(&mut self, name: &[u8]) -> Option<()> {
        self.0 = self.0.strip_prefix(name)?;
        Some(())
    }

    /// "ws = *( %x20 / %x09 / %x0A / %x0D )": space, horizontal tab, line feed, carriage return.
    fn ws(&mut self) {
        while self.take(b"\x20\x09\x0a\x0d").is_some() {}
    }

    /// The six structural characters, each as "ws %x.. ws".
    fn structural(&mut self, character: u8) -> Option<()> {
        self.ws();
        self.take(&[character])?;
        self.ws();
        Some(())
    }

    /// "value = false / null / true / object / array / number / string".
    fn value(&mut self, depth: usize) -> Option<Value> {
        match self.next()? {
            b'f' => self.literal(b"false").map(|()| Value::False),
            b'n' => self.literal(b"null").map(|()| Value::Null),
            b't' => self.literal(b"true").map(|()| Value::True),
            b'{' => self.object(depth.checked_sub(1)?).map(Value::Object),
            b'[' => self.array(depth.checked_sub(1)?).map(Value::Array),
            b'"' => self.string().map(Value::String),
            _ => self.number().map(Value::Number),
        }
    }

    /// "object = begin-object [ member *( value-separator member ) ] end-object".
    fn object(&mut self, depth: usize) -> Option<Vec<Member>> {
        let mut members = Vec::new();
        self.structural(b'{')?;
        if self.next()? != b'}' {
            members.push(self.member(depth)?);
            while self.structural(b',').is_some() {
                members.push(self.member(depth)?);
            }
        }
        self.structural(b'}')?;
        Some(members)
    }

    /// "member = string name-separator value".
    fn member(&mut self, depth: usize) -> Option<Member> {
        let name = self.string()?;
        self.structural(b':')?;
        let value = self.value(depth)?;
        Some(Member { name, value })
    }

    /// "array = begin-array [ value *( value-separator value ) ] end-array".
    fn array(&mut self, depth: usize) -> Option<Vec<Value>> {
        let mut values = Vec::new();
        self.structural(b'[')?;
        if self.next()? != b']' {
            values.push(self.value(depth)?);
            while self.structural(b',').is_some() {
                values.push(self.value(depth)?);
            }
        }
        self.structural(b']')?;
        Some(values)
    }

    /// "number = [ minus ] int [ frac ] [ exp ]".
    fn number(&mut self) -> Option<Vec<u8>> {
        let before = self.0;
        self.take(b"-");
        self.int()?;
        self.frac()?;
        self.exp()?;
        let written = &before[..before.len() - self.0.len()];
        Some(written.to_vec())
    }

    /// "int = zero / ( digit1-9 *DIGIT )".
    fn int(&mut self) -> Option<()> {
        if self.take(b"0").is_some() {
            return Some(());
        }
        self.take(b"123456789")?;
        while self.take(DIGIT).is_some() {}
        Some(())
    }

    /// "frac = decimal-point 1*DIGIT", if there is one.
    fn frac(&mut self) -> Option<()> {
        if self.take(b".").is_none() {
            return Some(());
        }
        self.digits()
    }

    /// "exp = e [ minus / plus ] 1*DIGIT", if there is one.
    fn exp(&mut self) -> Option<()> {
        if self.take(b"eE").is_none() {
            return Some(());
        }
        self.take(b"-+");
        self.digits()
    }

    /// "1*DIGIT".
    fn digits(&mut self) -> Option<()> {
        self.take(DIGIT)?;
        while self.take(DIGIT).is_some() {}
        Some(())
    }

    /// "string = quotation-mark *char quotation-mark".
    fn string(&mut self) -> Option<Vec<u8>> {
        self.take(b"\"")?;
        let before = self.0;
        while self.next()? != b'"' {
            self.char()?;
        }
        let written = &before[..before.len() - self.0.len()];
        self.take(b"\"")?;
        Some(written.to_vec())
    }

    /// "char = unescaped / escape ( .. )", a byte or an escape of it. The whole text is UTF-8, so the
    /// bytes of a character above 7F are taken one by one, each of them above 7F.
    fn char(&mut self) -> Option<()> {
        if self.take(b"\\").is_some() {
            return self.escaped();
        }
        let byte = self.next().filter(|&byte| is_unescaped(byte))?;
        self.take(&[byte])?;
        Some(())
    }

    /// What follows an escape: one of `"` `\` `/` `b` `f` `n` `r` `t`, or "%x75 4HEXDIG".
    fn escaped(&mut self) -> Option<()> {
        if self.take(b"\"\\/bfnrt").is_some() {
            return Some(());
        }
        self.take(b"u")?;
        for _ in 0..4 {
            self.take(b"0123456789ABCDEFabcdef")?;
        }
        Some(())
    }
}

/// "DIGIT", of RFC 5234.
const DIGIT: &[u8] = b"0123456789";

/// "unescaped = %x20-21 / %x23-5B / %x5D-10FFFF".
fn is_unescaped(byte: u8) -> bool {
    byte >= 0x20 && byte != b'"' && byte != b'\\'
}

/// "UTF8-octets = *( UTF8-char )", RFC 3629, section 4.
pub fn is_utf8(bytes: &[u8]) -> bool {
    let mut left = bytes;
    while !left.is_empty() {
        let length = utf8_char(left);
        if length == 0 {
            return false;
        }
        left = &left[length..];
    }
    true
}

/// How many octets the "UTF8-char = UTF8-1 / UTF8-2 / UTF8-3 / UTF8-4" at the front has; 0 if none
/// stands there.
fn utf8_char(bytes: &[u8]) -> usize {
    let at = |index: usize| bytes.get(index).copied().unwrap_or_default();
    let tail = |index: usize| matches!(at(index), 0x80..=0xbf);
    match (at(0), at(1)) {
        (0x00..=0x7f, _) => 1,
        (0xc2..=0xdf, 0x80..=0xbf) => 2,
        (0xe0, 0xa0..=0xbf) if tail(2) => 3,
        (0xe1..=0xec, 0x80..=0xbf) if tail(2) => 3,
        (0xed, 0x80..=0x9f) if tail(2) => 3,
        (0xee..=0xef, 0x80..=0xbf) if tail(2) => 3,
        (0xf0, 0x90..=0xbf) if tail(2) && tail(3) => 4,
        (0xf1..=0xf3, 0x80..=0xbf) if tail(2) && tail(3) => 4,
        (0xf4, 0x80..=0x8f) if tail(2) && tail(3) => 4,
        _ => 0,
    }
}
