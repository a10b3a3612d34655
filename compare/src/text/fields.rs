//! The fields of one line, read from left to right.

/// Marks a byte that is no hex digit; or-ing digits never gives it.
const NO_DIGIT: u8 = 0xFF;

/// The value of each byte as a lowercase hex digit.
const HEX_VALUES: [u8; 256] = hex_values();

const fn hex_values() -> [u8; 256] {
    let mut values = [NO_DIGIT; 256];
    let mut value = 0;
    while value < 16 {
        values[b"0123456789abcdef"[value as usize] as usize] = value;
        value += 1;
    }
    values
}

/// The part of a line not yet read; every field but the first starts at a tab.
pub struct Fields<'a> {
    rest: &'a [u8],
}

impl<'a> Fields<'a> {
    pub fn new(rest: &'a [u8]) -> Fields<'a> {
        Fields { rest }
    }

    /// Steps over a tab and a fixed word, if they come next.
    pub fn word(&mut self, word: &[u8]) -> Option<()> {
        self.rest = self.rest.strip_prefix(b"\t")?.strip_prefix(word)?;
        Some(())
    }

    /// A field of one byte.
    pub fn letter(&mut self) -> Option<u8> {
        let [b'\t', letter, rest @ ..] = self.rest else {
            return None;
        };
        self.rest = rest;
        Some(*letter)
    }

    /// A field of eight lowercase hex digits.
    pub fn hex(&mut self) -> Option<u32> {
        let (field, rest) = self.rest.split_first_chunk::<9>()?;
        let [b'\t', digits @ ..] = field else {
            return None;
        };
        let (mut number, mut seen) = (0, 0);
        for &digit in digits {
            let value = HEX_VALUES[usize::from(digit)];
            number = number << 4 | u32::from(value);
            seen |= value;
        }
        self.rest = rest;
        (seen != NO_DIGIT).then_some(number)
    }

    /// A decimal number without leading zeros, at most 4294967295.
    pub fn decimal(&mut self) -> Option<u32> {
        let field = self.rest.strip_prefix(b"\t")?;
        let (mut number, mut length) = (0u64, 0);
        while let Some(digit @ b'0'..=b'9') = field.get(length) {
            number = number * 10 + u64::from(digit - b'0');
            length += 1;
            if number > u64::from(u32::MAX) {
                return None;
            }
        }
        let leading_zero = length > 1 && field[0] == b'0';
        if length == 0 || leading_zero {
            return None;
        }
        self.rest = &field[length..];
        Some(number as u32)
    }

    /// Nothing may be left.
    pub fn end(&self) -> Option<()> {
        self.rest.is_empty().then_some(())
    }
}
