use crate::line::Line;
use std::ops::{Add, BitAnd, BitOr, BitXor, Not, Shl, Shr, Sub};

/// An address of one version as a number: u32 for IPv4, u128 for IPv6.
pub trait Address:
    Copy
    + Ord
    + Default
    + Add<Output = Self>
    + Sub<Output = Self>
    + BitAnd<Output = Self>
    + BitOr<Output = Self>
    + BitXor<Output = Self>
    + Not<Output = Self>
    + Shl<u32, Output = Self>
    + Shr<u32, Output = Self>
{
    const WIDTH: u32;
    const VERSION: &'static str;
    const ONE: Self;
    const MAX: Self;

    fn leading_zeros(self) -> u32;

    /// The number of its first 16 bits.
    fn top(self) -> usize;

    /// Reads the address at the start of a text, and returns it with its length in bytes.
    fn read(text: &[u8]) -> Option<(Self, usize)>;

    fn print(self, line: &mut Line);

    /// Returns the last address of the block of this length that begins with 0.
    #[inline(always)]
    fn hosts(length: u32) -> Self {
        if length >= Self::WIDTH {
            Self::default()
        } else {
            Self::MAX >> length
        }
    }

    /// Returns half the number of addresses of a block of this length, which is less than the width.
    #[inline(always)]
    fn half(length: u32) -> Self {
        Self::ONE << (Self::WIDTH - 1 - length)
    }
}

impl Address for u32 {
    const WIDTH: u32 = 32;
    const VERSION: &'static str = "ipv4";
    const ONE: u32 = 1;
    const MAX: u32 = u32::MAX;

    #[inline(always)]
    fn leading_zeros(self) -> u32 {
        self.leading_zeros()
    }

    #[inline(always)]
    fn top(self) -> usize {
        (self >> 16) as usize
    }

    #[inline(always)]
    fn read(text: &[u8]) -> Option<(u32, usize)> {
        let (mut address, mut used) = (0, 0);
        for place in 0..4 {
            if place > 0 {
                if text.get(used) != Some(&b'.') {
                    return None;
                }
                used += 1;
            }
            let (octet, digits) = decimal(&text[used..]);
            if digits == 0 || digits > 3 || octet > 255 {
                return None;
            }
            address = address << 8 | octet as u32;
            used += digits;
        }
        Some((address, used))
    }

    #[inline(always)]
    fn print(self, line: &mut Line) {
        let [a, b, c, d] = self.to_be_bytes();
        line.octet(a);
        line.byte(b'.');
        line.octet(b);
        line.byte(b'.');
        line.octet(c);
        line.byte(b'.');
        line.octet(d);
    }
}

impl Address for u128 {
    const WIDTH: u32 = 128;
    const VERSION: &'static str = "ipv6";
    const ONE: u128 = 1;
    const MAX: u128 = u128::MAX;

    #[inline(always)]
    fn leading_zeros(self) -> u32 {
        self.leading_zeros()
    }

    #[inline(always)]
    fn top(self) -> usize {
        (self >> 112) as usize
    }

    /// Reads all forms of RFC 4291 except the one with a dotted part.
    fn read(text: &[u8]) -> Option<(u128, usize)> {
        let mut groups = [0; 8];
        let mut gap = text.starts_with(b"::").then_some(0);
        let (mut count, mut used) = (0, if gap.is_some() { 2 } else { 0 });
        while count < 8 {
            let (group, digits) = hexadecimal(&text[used..]);
            if digits == 0 {
                break;
            }
            groups[count] = group;
            count += 1;
            used += digits;
            if count == 8 || text.get(used) != Some(&b':') {
                break;
            }
            used += 1;
            if text.get(used) == Some(&b':') {
                if gap.is_some() {
                    return None;
                }
                gap = Some(count);
                used += 1;
            }
        }
        match gap {
            Some(gap) if count < 8 => {
                groups.copy_within(gap..count, 8 - (count - gap));
                groups[gap..8 - (count - gap)].fill(0);
            }
            None if count == 8 => {}
            _ => return None,
        }
        Some((groups.into_iter().fold(0, |address, group| address << 16 | u128::from(group)), used))
    }

    fn print(self, line: &mut Line) {
        let groups: [u16; 8] = std::array::from_fn(|place| (self >> (112 - 16 * place)) as u16);
        let (start, end) = zero_run(&groups);
        for (place, group) in groups.into_iter().enumerate() {
            if place == start {
                line.text(b"::");
            }
            if place >= start && place < end {
                continue;
            }
            if place > 0 && place != end {
                line.byte(b':');
            }
            line.hexadecimal(group);
        }
    }
}

/// Returns the decimal number at the start of a text, and the number of its digits. At most ten digits are read.
#[inline(always)]
pub fn decimal(text: &[u8]) -> (u64, usize) {
    let (mut number, mut digits) = (0, 0);
    while digits < 10 && digits < text.len() {
        let digit = text[digits].wrapping_sub(b'0');
        if digit > 9 {
            break;
        }
        number = 10 * number + u64::from(digit);
        digits += 1;
    }
    (number, digits)
}

/// Returns the hexadecimal number at the start of a text, and its length, at most four digits.
#[inline(always)]
fn hexadecimal(text: &[u8]) -> (u16, usize) {
    let (mut number, mut digits) = (0, 0);
    while digits < 4 && digits < text.len() {
        let digit = match text[digits] {
            byte @ b'0'..=b'9' => byte - b'0',
            byte @ b'a'..=b'f' => byte - b'a' + 10,
            byte @ b'A'..=b'F' => byte - b'A' + 10,
            _ => break,
        };
        number = number << 4 | u16::from(digit);
        digits += 1;
    }
    (number, digits)
}

/// Returns the start and the end of the longest run of two or more groups of zeros, the first of equal runs.
fn zero_run(groups: &[u16; 8]) -> (usize, usize) {
    let mut longest = (8, 8);
    let mut start = 0;
    while start < 8 {
        let length = groups[start..].iter().take_while(|group| **group == 0).count();
        if length >= 2 && length > longest.1 - longest.0 {
            longest = (start, start + length);
        }
        start += length + 1;
    }
    longest
}
