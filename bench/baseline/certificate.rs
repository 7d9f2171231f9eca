use crate::address::decimal;
use crate::labels::Labels;
use crate::Fault;

/// The claim of a node: its cost, and the range of its labels among those of the current nodes.
#[derive(Clone, Copy)]
pub struct Claim {
    pub cost: u64,
    pub start: usize,
    pub end: usize,
}

/// A node line.
pub enum NodeLine<'a> {
    Leaf(u16),
    Inner(Claim),
    /// A chain with its bits and its side label.
    Chain(Claim, &'a [u8], u16),
}

/// The text of a certificate, read line by line.
pub struct Certificate<'a> {
    pub text: &'a [u8],
    /// The offset at which the next node line begins.
    pub place: usize,
    pub format: u8,
    pub is_ipv6: bool,
    pub labels: Labels,
    pub sets: Vec<u16>,
}

const BAD_HEADER: &str = "no header of a certificate";
const BAD_NODE: &str = "no node line";

impl<'a> Certificate<'a> {
    /// Reads the header and the labels.
    pub fn read(text: &'a [u8]) -> Result<Certificate<'a>, Fault> {
        let mut lines = text.split(|byte| *byte == b'\n');
        let header = lines.next().and_then(|line| std::str::from_utf8(line).ok()).ok_or(BAD_HEADER)?;
        let words: Vec<&str> = header.split(' ').collect();
        let ["flowlabel-cert", format, version, count] = words[..] else {
            return Err(BAD_HEADER.into());
        };
        let mut labels = Labels::new();
        let mut place = header.len() + 1;
        for number in 0..count.parse::<u32>()? {
            let label = lines.next().ok_or("too few labels")?;
            if labels.enter(label) != number {
                return Err("a label stands twice".into());
            }
            place += label.len() + 1;
        }
        Ok(Certificate { text, place, format: format.parse()?, is_ipv6: version == "ipv6", labels, sets: Vec::new() })
    }

    /// Takes the next byte if it is this one, and returns whether it is.
    #[inline(always)]
    fn take(&mut self, byte: u8) -> bool {
        let is_next = self.text.get(self.place) == Some(&byte);
        self.place += usize::from(is_next);
        is_next
    }

    #[inline(always)]
    fn number(&mut self, most: u64) -> Result<u64, Fault> {
        let rest = self.text.get(self.place..).ok_or(BAD_NODE)?;
        let (number, digits) = decimal(rest);
        if digits == 0 || digits > 1 && rest[0] == b'0' || number > most {
            return Err(BAD_NODE.into());
        }
        self.place += digits;
        Ok(number)
    }

    #[inline(always)]
    fn label(&mut self) -> Result<u16, Fault> {
        let number = self.number(65_535)?;
        if number >= u64::from(self.labels.len()) {
            return Err(BAD_NODE.into());
        }
        Ok(number as u16)
    }

    /// Reads the next node line. Its labels are appended to those of the sets.
    #[inline(always)]
    pub fn line(&mut self) -> Result<NodeLine<'a>, Fault> {
        let letter = *self.text.get(self.place).ok_or("too few nodes")?;
        self.place += 1;
        if !self.take(b' ') {
            return Err(BAD_NODE.into());
        }
        if letter == b'l' {
            let label = self.label()?;
            return if self.take(b'\n') { Ok(NodeLine::Leaf(label)) } else { Err(BAD_NODE.into()) };
        }
        let cost = self.number(u64::from(u32::MAX))?;
        let chain = match letter {
            b'n' => None,
            b'c' if self.format == 2 && self.take(b' ') => Some(self.bits()?),
            _ => return Err(BAD_NODE.into()),
        };
        let start = self.sets.len();
        while self.take(b' ') {
            let label = self.label()?;
            if self.sets[start..].last().is_some_and(|before| *before >= label) {
                return Err(BAD_NODE.into());
            }
            self.sets.push(label);
        }
        if !self.take(b'\n') {
            return Err(BAD_NODE.into());
        }
        let claim = Claim { cost, start, end: self.sets.len() };
        Ok(chain.map_or(NodeLine::Inner(claim), |(bits, side)| NodeLine::Chain(claim, bits, side)))
    }

    fn bits(&mut self) -> Result<(&'a [u8], u16), Fault> {
        let rest = &self.text[self.place..];
        let count = rest.iter().take_while(|byte| matches!(byte, b'0' | b'1')).count();
        self.place += count;
        if !(1..=128).contains(&count) || !self.take(b' ') {
            return Err(BAD_NODE.into());
        }
        Ok((&rest[..count], self.label()?))
    }
}
