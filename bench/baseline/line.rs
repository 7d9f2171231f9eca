//! The type of lines, and tables for printing numbers.

/// The text of one line while it is built. No line of the bench exceeds its capacity.
pub struct Line {
    bytes: [u8; 1024],
    length: usize,
}

/// The digits of each number below 1,000 and their number, which is three with leading zeros.
const fn groups(has_zeros: bool) -> [[u8; 4]; 1000] {
    let mut groups = [[0; 4]; 1000];
    let mut group = 0;
    while group < 1000 {
        let (a, b, c) = (b'0' + (group / 100) as u8, b'0' + (group / 10 % 10) as u8, b'0' + (group % 10) as u8);
        groups[group] = match group {
            _ if has_zeros => [a, b, c, 3],
            0..=9 => [c, 0, 0, 1],
            10..=99 => [b, c, 0, 2],
            _ => [a, b, c, 3],
        };
        group += 1;
    }
    groups
}

static GROUPS: [[u8; 4]; 1000] = groups(false);
static GROUPS_WITH_ZEROS: [[u8; 4]; 1000] = groups(true);

impl Line {
    pub fn new() -> Line {
        Line { bytes: [0; 1024], length: 0 }
    }

    pub fn as_bytes(&self) -> &[u8] {
        &self.bytes[..self.length]
    }

    pub fn len(&self) -> usize {
        self.length
    }

    /// Appends the text to the output, and begins a new line.
    #[inline(always)]
    pub fn end(&mut self, out: &mut Vec<u8>) {
        out.extend_from_slice(self.as_bytes());
        self.length = 0;
    }

    pub fn clear(&mut self) {
        self.length = 0;
    }

    #[inline(always)]
    pub fn byte(&mut self, byte: u8) {
        self.bytes[self.length] = byte;
        self.length += 1;
    }

    #[inline(always)]
    pub fn text(&mut self, text: &[u8]) {
        self.bytes[self.length..self.length + text.len()].copy_from_slice(text);
        self.length += text.len();
    }

    #[inline(always)]
    fn group(&mut self, digits: [u8; 4]) {
        self.bytes[self.length..self.length + 4].copy_from_slice(&digits);
        self.length += usize::from(digits[3]);
    }

    #[inline(always)]
    pub fn octet(&mut self, octet: u8) {
        self.group(GROUPS[usize::from(octet)]);
    }

    #[inline(always)]
    pub fn number(&mut self, mut number: u64) {
        let (mut groups, mut count) = ([0; 7], 0);
        while number >= 1000 {
            groups[count] = (number % 1000) as u16;
            number /= 1000;
            count += 1;
        }
        self.group(GROUPS[number as usize]);
        for group in groups[..count].iter().rev() {
            self.group(GROUPS_WITH_ZEROS[usize::from(*group)]);
        }
    }

    pub fn hexadecimal(&mut self, number: u16) {
        let length = (4 - number.leading_zeros() as usize / 4).max(1);
        for place in (0..length).rev() {
            self.byte(b"0123456789abcdef"[usize::from(number >> (4 * place)) & 15]);
        }
    }
}
