//! Lines, fields and words of both files: reading and writing.

/// Reads a file from front to back and knows the line it is in. Every method answers `None` where the file does not go
/// on as asked; the line is then the one that cannot stand in a good file, or the one where the file ends early.
pub struct Reader<'a> {
    bytes: &'a [u8],
    at: usize,
    line: u64,
}

impl<'a> Reader<'a> {
    pub fn new(bytes: &'a [u8]) -> Self {
        Reader { bytes, at: 0, line: 1 }
    }

    pub fn line(&self) -> u64 {
        self.line
    }

    pub fn at_end(&self) -> bool {
        self.at == self.bytes.len()
    }

    fn peek(&self) -> Option<u8> {
        self.bytes.get(self.at).copied()
    }

    fn byte(&mut self, wanted: u8) -> Option<()> {
        if self.peek()? != wanted {
            return None;
        }
        self.at += 1;
        Some(())
    }

    pub fn comma(&mut self) -> Option<()> {
        self.byte(b',')
    }

    pub fn end_of_line(&mut self) -> Option<()> {
        self.byte(b'\n')?;
        self.line += 1;
        Some(())
    }

    /// Whether an empty line stands here; it is read if so.
    pub fn empty_line(&mut self) -> bool {
        self.end_of_line().is_some()
    }

    /// A line that reads exactly so.
    pub fn header(&mut self, text: &str) -> Option<()> {
        if !self.bytes[self.at..].starts_with(text.as_bytes()) {
            return None;
        }
        self.at += text.len();
        self.end_of_line()
    }

    /// An optional minus and 1 to 18 digits, no leading zero, no "-0".
    pub fn number(&mut self) -> Option<i64> {
        let negative = self.byte(b'-').is_some();
        let start = self.at;
        let mut value = 0i64;
        while let Some(byte @ b'0'..=b'9') = self.peek() {
            if self.at - start == 18 {
                return None;
            }
            value = value * 10 + i64::from(byte - b'0');
            self.at += 1;
        }
        let digits = self.at - start;
        if digits == 0 || self.bytes[start] == b'0' && (digits > 1 || negative) {
            return None;
        }
        Some(if negative { -value } else { value })
    }

    /// A comma and a number.
    pub fn next_number(&mut self) -> Option<i64> {
        self.comma()?;
        self.number()
    }

    /// `N` times a comma and a number.
    pub fn next_numbers<const N: usize>(&mut self) -> Option<[i64; N]> {
        let mut numbers = [0; N];
        for number in &mut numbers {
            *number = self.next_number()?;
        }
        Some(numbers)
    }

    /// 1 to 8 of A–Z and 0–9, packed into one word, the last byte lowest.
    pub fn name(&mut self) -> Option<u64> {
        let start = self.at;
        let mut packed = 0u64;
        while let Some(byte @ (b'A'..=b'Z' | b'0'..=b'9')) = self.peek() {
            if self.at - start == 8 {
                return None;
            }
            packed = packed << 8 | u64::from(byte);
            self.at += 1;
        }
        (packed != 0).then_some(packed)
    }

    /// A comma and one of the phases words, as bits: A 1, B 2, C 4.
    pub fn next_phases(&mut self) -> Option<u8> {
        self.comma()?;
        let mut phases = 0;
        for (bit, letter) in [(1, b'A'), (2, b'B'), (4, b'C')] {
            if self.byte(letter).is_some() {
                phases |= bit;
            }
        }
        (phases != 0).then_some(phases)
    }

    /// A comma and a word of capital letters, which may be empty.
    pub fn next_word(&mut self) -> Option<&'a [u8]> {
        self.comma()?;
        let rest = &self.bytes[self.at..];
        let length = rest.iter().take_while(|byte| byte.is_ascii_uppercase()).count();
        self.at += length;
        Some(&rest[..length])
    }

    /// A comma and one letter.
    pub fn next_letter(&mut self) -> Option<u8> {
        self.comma()?;
        let letter = self.peek()?;
        self.at += 1;
        Some(letter)
    }
}

/// Writes the lines of a report.
pub struct Writer {
    bytes: Vec<u8>,
}

impl Writer {
    pub fn with_room(bytes: usize) -> Self {
        Writer { bytes: Vec::with_capacity(bytes) }
    }

    pub fn into_bytes(self) -> Vec<u8> {
        self.bytes
    }

    pub fn text(&mut self, text: &str) {
        self.bytes.extend_from_slice(text.as_bytes());
    }

    pub fn comma(&mut self) {
        self.bytes.push(b',');
    }

    pub fn end_of_line(&mut self) {
        self.bytes.push(b'\n');
    }

    pub fn name(&mut self, packed: u64) {
        let bytes = packed.to_be_bytes();
        let unused = packed.leading_zeros() as usize / 8;
        self.bytes.extend_from_slice(&bytes[unused..]);
    }

    pub fn number(&mut self, number: i64) {
        let mut digits = [0u8; 20];
        let mut start = digits.len();
        let mut rest = number.unsigned_abs();
        loop {
            start -= 1;
            digits[start] = b'0' + (rest % 10) as u8;
            rest /= 10;
            if rest == 0 {
                break;
            }
        }
        if number < 0 {
            start -= 1;
            digits[start] = b'-';
        }
        self.bytes.extend_from_slice(&digits[start..]);
    }

    pub fn next_number(&mut self, number: i64) {
        self.comma();
        self.number(number);
    }
}

#[cfg(test)]
mod tests {
    use super::*;

    fn number(text: &str) -> Option<i64> {
        let mut reader = Reader::new(text.as_bytes());
        reader.number().filter(|_| reader.at_end())
    }

    #[test]
    fn numbers() {
        assert_eq!(number("0"), Some(0));
        assert_eq!(number("-1"), Some(-1));
        assert_eq!(number("999999999999999999"), Some(999_999_999_999_999_999));
        assert_eq!(number("-999999999999999999"), Some(-999_999_999_999_999_999));
        for bad in ["", "-", "-0", "00", "01", "-01", "+1", " 1", "1 ", "1\r", "--1", "1000000000000000000"] {
            assert_eq!(number(bad), None, "{bad:?}");
        }
    }

    #[test]
    fn names() {
        let read = |text: &str| {
            let mut reader = Reader::new(text.as_bytes());
            reader.name().filter(|_| reader.at_end())
        };
        for good in ["A", "0", "007", "ABCDEFGH", "Z9"] {
            let mut writer = Writer::with_room(8);
            writer.name(read(good).unwrap());
            assert_eq!(writer.into_bytes(), good.as_bytes());
        }
        for bad in ["", "ABCDEFGHI", "a", "A B", "A_"] {
            assert_eq!(read(bad), None, "{bad:?}");
        }
    }

    #[test]
    fn phases() {
        let read = |text: &str| {
            let mut reader = Reader::new(text.as_bytes());
            reader.next_phases().filter(|_| reader.at_end())
        };
        let good = [",A", ",B", ",AB", ",C", ",AC", ",BC", ",ABC"];
        for (bits, word) in good.iter().enumerate() {
            assert_eq!(read(word), Some(bits as u8 + 1));
        }
        for bad in [",", "A", ",BA", ",CA", ",AA", ",ABCA", ",D", ",a"] {
            assert_eq!(read(bad), None, "{bad:?}");
        }
    }

    #[test]
    fn written_numbers() {
        for n in [0, 1, -1, 9, 10, -10, 12345, 999_999_999_999_999_999, i64::MIN, i64::MAX] {
            let mut writer = Writer::with_room(20);
            writer.number(n);
            assert_eq!(writer.into_bytes(), n.to_string().as_bytes());
        }
    }
}
