//! Words of a line, in and out.
//!
//! A line's words are parted by exactly one space; an empty word is no number, float or list, so
//! doubled, leading and trailing spaces make a bad line, and so is the empty line. A number is one
//! to ten decimal digits, leading zeros included, also behind a window op's letter; a float eight
//! uppercase hex digits, a NaN only as 7FC00000; a byte list uppercase hex pairs, or `-` where it
//! is empty. A list is its length, then its values. A carriage return, a tab or a byte beyond
//! ASCII belongs to a word and is in no word's form. The last line may lack its line feed.

/// The longest line that is read, its line feed not counted.
pub const LINE_ROOM: usize = 262_144;
const NAN: u32 = 0x7FC0_0000;

/// The words of a line that are still to be read; a method gives nothing where the form fails.
pub struct Words<'a>(Option<&'a [u8]>);

impl<'a> Words<'a> {
    pub fn of(line: &'a [u8]) -> Words<'a> {
        Words(Some(line))
    }

    pub fn word(&mut self) -> Option<&'a [u8]> {
        let rest = self.0?;
        let space = rest.iter().position(|&byte| byte == b' ');
        self.0 = space.map(|at| &rest[at + 1..]);
        Some(&rest[..space.unwrap_or(rest.len())])
    }

    /// Whether the next word is that.
    pub fn is_next(&self, word: &[u8]) -> bool {
        Words(self.0).word() == Some(word)
    }

    /// A number from 0 to `most`.
    pub fn number(&mut self, most: usize) -> Option<usize> {
        number(self.word()?, most)
    }

    pub fn float(&mut self) -> Option<f32> {
        let word = self.word()?;
        if word.len() != 8 {
            return None;
        }
        let bits = word
            .iter()
            .try_fold(0, |bits, &digit| Some(bits << 4 | u32::from(hex(digit)?)))?;
        let float = f32::from_bits(bits);
        if float.is_nan() && bits != NAN {
            return None;
        }
        Some(float)
    }

    pub fn some_floats<const N: usize>(&mut self) -> Option<[f32; N]> {
        let mut floats = [0.0; N];
        for float in &mut floats {
            *float = self.float()?;
        }
        Some(floats)
    }

    /// A list: its length, then its values, each read by `value`.
    pub fn list<T>(&mut self, value: fn(&mut Self) -> Option<T>) -> Option<Vec<T>> {
        let length = self.number(LINE_ROOM)?;
        (0..length).map(|_| value(self)).collect()
    }

    pub fn bytes(&mut self) -> Option<Vec<u8>> {
        let word = self.word()?;
        if word == b"-" {
            return Some(Vec::new());
        }
        if word.is_empty() || word.len() % 2 != 0 {
            return None;
        }
        word.chunks_exact(2)
            .map(|pair| Some(hex(pair[0])? << 4 | hex(pair[1])?))
            .collect()
    }

    /// Nothing may follow.
    pub fn end(&self) -> Option<()> {
        match self.0 {
            None => Some(()),
            Some(_) => None,
        }
    }
}

/// A whole word as a number from 0 to `most`.
pub fn number(word: &[u8], most: usize) -> Option<usize> {
    if word.is_empty() || word.len() > 10 || !word.iter().all(u8::is_ascii_digit) {
        return None;
    }
    let value = word
        .iter()
        .fold(0, |value, digit| value * 10 + u64::from(digit - b'0'));
    usize::try_from(value).ok().filter(|&value| value <= most)
}

fn hex(digit: u8) -> Option<u8> {
    match digit {
        b'0'..=b'9' => Some(digit - b'0'),
        b'A'..=b'F' => Some(digit - b'A' + 10),
        _ => None,
    }
}

/// A line as it is written, without its line feed.
pub struct Line(String);

impl Line {
    pub fn new(kind: &str) -> Line {
        Line(kind.to_string())
    }

    pub fn word(mut self, word: &str) -> Line {
        self.0.push(' ');
        self.0.push_str(word);
        self
    }

    pub fn number(self, number: usize) -> Line {
        self.word(&number.to_string())
    }

    pub fn float(mut self, float: f32) -> Line {
        self.0.push(' ');
        self.push_float(float);
        self
    }

    /// Floats in a row, with no length before them.
    pub fn some_floats(self, floats: &[f32]) -> Line {
        floats.iter().fold(self, |line, &float| line.float(float))
    }

    pub fn floats(self, floats: &[f32]) -> Line {
        self.number(floats.len()).some_floats(floats)
    }

    pub fn numbers(self, numbers: &[u32]) -> Line {
        numbers
            .iter()
            .fold(self.number(numbers.len()), |line, &number| {
                line.number(number as usize)
            })
    }

    pub fn bytes(mut self, bytes: &[u8]) -> Line {
        if bytes.is_empty() {
            return self.word("-");
        }
        self.0.push(' ');
        for &byte in bytes {
            self.push_hex(u32::from(byte), 2);
        }
        self
    }

    pub fn done(self) -> String {
        self.0
    }

    /// The word of a float alone.
    pub fn push_float(&mut self, float: f32) {
        let bits = if float.is_nan() { NAN } else { float.to_bits() };
        self.push_hex(bits, 8);
    }

    fn push_hex(&mut self, bits: u32, digits: u32) {
        for at in (0..digits).rev() {
            let digit = (bits >> (4 * at)) as usize & 15;
            self.0.push(char::from(b"0123456789ABCDEF"[digit]));
        }
    }
}

/// The word of a float.
pub fn float_word(float: f32) -> String {
    let mut word = Line(String::new());
    word.push_float(float);
    word.done()
}

/// A lent float list before a call: place i holds i + 0.25, which every such f32 is exactly.
pub fn filled_floats(length: usize) -> Vec<f32> {
    (0..length).map(|i| i as f32 + 0.25).collect()
}

/// A lent list of whole numbers before a call.
pub fn filled_numbers<T: From<u8>>(length: usize) -> Vec<T> {
    (0..length)
        .map(|i| T::from(((i * 7 + 3) % 251) as u8))
        .collect()
}
