//! A strict reader of JSON texts (RFC 8259) in UTF-8, in place: every byte is checked as it is passed,
//! and nothing is copied or allocated.

/// The text is no JSON, or deeper than was allowed.
#[derive(Debug)]
pub struct NotJson;

type Read<T> = Result<T, NotJson>;

/// A text and how far it was read.
pub struct Reader<'a> {
    text: &'a [u8],
    at: usize,
}

/// What a byte is inside of a string.
#[derive(Clone, Copy, PartialEq, Eq)]
enum Class {
    /// From 20 to 7e hex.
    Plain,
    /// DEL, or a byte of a longer character.
    Other,
    Quote,
    Escape,
    Control,
}

const CLASSES: [Class; 256] = {
    let mut classes = [Class::Other; 256];
    let mut byte = 0;
    while byte < 0x7f {
        classes[byte] = if byte < 0x20 {
            Class::Control
        } else {
            Class::Plain
        };
        byte += 1;
    }
    classes[b'"' as usize] = Class::Quote;
    classes[b'\\' as usize] = Class::Escape;
    classes
};

/// A string as it is written, without its quotation marks.
pub struct Text<'a> {
    pub written: &'a [u8],
    /// Whether all of it is bytes 20 to 7e hex with no quote or backslash.
    pub plain: bool,
}

impl<'a> Reader<'a> {
    pub fn new(text: &'a [u8]) -> Self {
        Reader { text, at: 0 }
    }

    /// What is not read yet.
    pub fn rest(&self) -> &'a [u8] {
        &self.text[self.at..]
    }

    /// Passes bytes that the caller has checked.
    pub fn pass(&mut self, bytes: usize) {
        self.at += bytes;
    }

    /// The next byte; at the end a NUL, which no text may have either.
    pub fn next(&self) -> u8 {
        self.text.get(self.at).copied().unwrap_or(0)
    }

    /// Passes spaces, and answers the byte after them.
    pub fn ws(&mut self) -> u8 {
        loop {
            let byte = self.next();
            if !matches!(byte, b' ' | b'\t' | b'\n' | b'\r') {
                return byte;
            }
            self.at += 1;
        }
    }

    fn take(&mut self, byte: u8) -> Read<()> {
        if self.next() != byte {
            return Err(NotJson);
        }
        self.at += 1;
        Ok(())
    }

    /// Sees that nothing is left but spaces.
    pub fn end(&mut self) -> Read<()> {
        self.ws();
        if self.at < self.text.len() {
            return Err(NotJson);
        }
        Ok(())
    }

    /// Reads an object; each member's value is read by the caller.
    pub fn object(&mut self, mut value: impl FnMut(&mut Self, &'a [u8]) -> Read<()>) -> Read<()> {
        self.take(b'{')?;
        if self.ws() == b'}' {
            self.at += 1;
            return Ok(());
        }
        loop {
            let name = self.string()?.written;
            self.ws();
            self.take(b':')?;
            self.ws();
            value(self, name)?;
            match self.ws() {
                b',' => self.at += 1,
                _ => return self.take(b'}'),
            }
            self.ws();
        }
    }

    /// Reads an array; each value is read by the caller.
    pub fn array(&mut self, mut value: impl FnMut(&mut Self) -> Read<()>) -> Read<()> {
        self.take(b'[')?;
        if self.ws() == b']' {
            self.at += 1;
            return Ok(());
        }
        loop {
            value(self)?;
            match self.ws() {
                b',' => self.at += 1,
                _ => return self.take(b']'),
            }
            self.ws();
        }
    }

    /// Passes any value in which at most so many objects and arrays stand inside each other.
    pub fn skip(&mut self, depth: usize) -> Read<()> {
        match self.next() {
            b'"' => self.string().map(drop),
            b'{' => {
                let depth = depth.checked_sub(1).ok_or(NotJson)?;
                self.object(|reader, _| reader.skip(depth))
            }
            b'[' => {
                let depth = depth.checked_sub(1).ok_or(NotJson)?;
                self.array(|reader| reader.skip(depth))
            }
            b't' => self.literal(b"true"),
            b'f' => self.literal(b"false"),
            b'n' => self.literal(b"null"),
            _ => self.number().map(drop),
        }
    }

    pub fn literal(&mut self, name: &[u8]) -> Read<()> {
        if !self.rest().starts_with(name) {
            return Err(NotJson);
        }
        self.at += name.len();
        Ok(())
    }

    /// Reads a number, and answers it if it is bare digits that fit 64 bits.
    pub fn number(&mut self) -> Read<Option<u64>> {
        let minus = self.next() == b'-';
        self.at += usize::from(minus);
        let mut number = match self.next() {
            digit @ b'0'..=b'9' => Some(u64::from(digit - b'0')),
            _ => return Err(NotJson),
        };
        self.at += 1;
        if number != Some(0) {
            while let digit @ b'0'..=b'9' = self.next() {
                let shifted = number.and_then(|number| number.checked_mul(10));
                number = shifted.and_then(|number| number.checked_add(u64::from(digit - b'0')));
                self.at += 1;
            }
        }
        let fraction = self.next() == b'.';
        if fraction {
            self.at += 1;
            self.digits()?;
        }
        let exponent = matches!(self.next(), b'e' | b'E');
        if exponent {
            self.at += 1;
            self.at += usize::from(matches!(self.next(), b'+' | b'-'));
            self.digits()?;
        }
        Ok(number.filter(|_| !(minus || fraction || exponent)))
    }

    /// Passes one digit or more.
    fn digits(&mut self) -> Read<()> {
        if !self.next().is_ascii_digit() {
            return Err(NotJson);
        }
        while self.next().is_ascii_digit() {
            self.at += 1;
        }
        Ok(())
    }

    /// Reads a string. Quotes and backslashes are never part of a longer character, so its UTF-8 is
    /// checked once, at its end, if it has such characters at all.
    pub fn string(&mut self) -> Read<Text<'a>> {
        self.take(b'"')?;
        let first = self.at;
        let mut plain = true;
        let mut ascii = true;
        loop {
            let byte = self.next();
            match CLASSES[usize::from(byte)] {
                Class::Plain => self.at += 1,
                Class::Other => {
                    plain = false;
                    ascii &= byte.is_ascii();
                    self.at += 1;
                }
                Class::Escape => {
                    plain = false;
                    self.escape()?;
                }
                Class::Control => return Err(NotJson),
                Class::Quote => break,
            }
        }
        let written = &self.text[first..self.at];
        self.at += 1;
        if !ascii && std::str::from_utf8(written).is_err() {
            return Err(NotJson);
        }
        Ok(Text { written, plain })
    }

    fn escape(&mut self) -> Read<()> {
        self.at += match self.rest() {
            [_, b'"' | b'\\' | b'/' | b'b' | b'f' | b'n' | b'r' | b't', ..] => 2,
            [_, b'u', digits @ ..] if digits.len() >= 4 => {
                if !digits[..4].iter().all(u8::is_ascii_hexdigit) {
                    return Err(NotJson);
                }
                6
            }
            _ => return Err(NotJson),
        };
        Ok(())
    }
}
