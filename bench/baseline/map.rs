use crate::address::{decimal, Address};
use crate::labels::Labels;
use crate::Fault;

/// A mapping of a map text, or an entry of a list: its addresses and the number of its label.
#[derive(Clone, Copy)]
pub struct Statement<A> {
    pub first: A,
    pub last: A,
    pub label: u32,
}

/// The content of a map text, or of a list text, which has no default.
pub struct Map<A> {
    pub name: Option<Vec<u8>>,
    pub labels: Labels,
    pub default: Option<u32>,
    pub statements: Vec<Statement<A>>,
}

/// Returns whether a text is over IPv6. The texts of the bench begin with a mode.
pub fn is_ipv6(text: &[u8]) -> bool {
    text.split(|byte| *byte == b'\n').take(3).any(|line| line == b"mode ipv6")
}

impl<A: Address> Map<A> {
    pub fn read_map(text: &[u8]) -> Result<Map<A>, Fault> {
        let mut statements = Vec::with_capacity(text.len() / 32);
        let mut map = Map::read(text, |_, statement| statements.push(statement))?;
        map.statements = statements;
        map.default = Some(map.default.unwrap_or_else(|| map.labels.enter(b"UNKNOWN")));
        Ok(map)
    }

    /// Returns the entries in the order of their first addresses, and of equal first addresses the longer block first.
    pub fn read_list(text: &[u8]) -> Result<Map<A>, Fault> {
        let mut entries = Vec::with_capacity(text.len() / 32);
        let mut list = Map::read(text, |_, entry: Statement<A>| entries.push(entry))?;
        let key = |entry: &Statement<A>| (entry.first, !entry.last);
        if !entries.windows(2).all(|pair| key(&pair[0]) < key(&pair[1])) {
            entries.sort_unstable_by_key(key);
        }
        list.statements = entries;
        Ok(list)
    }

    /// Reads a text with blocks, ranges and addresses of its own version and without declared labels, calls back with
    /// each statement, and returns the rest.
    pub fn read(text: &[u8], mut each: impl FnMut(&Labels, Statement<A>)) -> Result<Map<A>, Fault> {
        let mut map = Map { name: None, labels: Labels::new(), default: None, statements: Vec::new() };
        let mut rest = text;
        while !rest.is_empty() {
            rest = match statement::<A>(rest) {
                Some((first, last, label, behind)) => {
                    let label = map.labels.enter(label);
                    each(&map.labels, Statement { first, last, label });
                    behind
                }
                None => map.read_other(rest)?,
            };
        }
        Ok(map)
    }

    /// Reads a line that is not a statement, and returns the text after it.
    fn read_other<'a>(&mut self, text: &'a [u8]) -> Result<&'a [u8], Fault> {
        let end = text.iter().position(|byte| *byte == b'\n').ok_or("a line without an end")?;
        let (line, behind) = (&text[..end], &text[end + 1..]);
        if let Some(label) = line.strip_prefix(b"default ") {
            self.default = Some(self.labels.enter(label));
        } else if let Some(name) = line.strip_prefix(b"map-name ") {
            self.name = Some(name.to_vec());
        } else if !(line.is_empty() || line[0] == b'#' || line.strip_prefix(b"mode ") == Some(A::VERSION.as_bytes())) {
            return Err("no statement that the baseline reads".into());
        }
        Ok(behind)
    }
}

/// Reads the statement at the start of a text. Returns its first and its last address, its label, and the text after
/// its line.
#[inline(always)]
fn statement<A: Address>(text: &[u8]) -> Option<(A, A, &[u8], &[u8])> {
    let (first, used) = A::read(text)?;
    let rest = &text[used..];
    if rest.first() == Some(&b'/') {
        let (length, digits) = decimal(&rest[1..]);
        if digits == 0 || digits > 3 || length > u64::from(A::WIDTH) {
            return None;
        }
        let hosts = A::hosts(length as u32);
        let (label, behind) = label(&rest[1 + digits..])?;
        return Some((first & !hosts, first | hosts, label, behind));
    }
    if let Some((last, used)) = A::read(rest.get(1..)?) {
        if rest.get(1 + used) == Some(&b' ') && first <= last {
            let (label, behind) = label(&rest[1 + used..])?;
            return Some((first, last, label, behind));
        }
    }
    let (label, behind) = label(rest)?;
    Some((first, first, label, behind))
}

/// Reads the label at the start of a text, after blanks. Returns it and the text after its line.
#[inline(always)]
fn label(text: &[u8]) -> Option<(&[u8], &[u8])> {
    let start = text.iter().position(|byte| *byte != b' ')?;
    let end = start + text[start..].iter().position(|byte| *byte < 32 || *byte == 127 || *byte == b'#')?;
    (start > 0 && (1..=255).contains(&(end - start)) && text[end] == b'\n' && text[end - 1] != b' ')
        .then(|| (&text[start..end], &text[end + 1..]))
}
