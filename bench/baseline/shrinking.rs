//! `shrink`: the shortest list of a tree, and its certificate.

use crate::address::Address;
use crate::labels::Labels;
use crate::line::Line;
use crate::tree::{Kind, Path, Tree};

/// Writes the text of a list or of a certificate while descending a tree.
struct Printer<'a, A> {
    tree: &'a Tree<A>,
    labels: &'a Labels,
    is_compact: bool,
    line: Line,
    out: Vec<u8>,
}

/// Returns the text of the shortest list.
pub fn list<A: Address>(tree: &Tree<A>, labels: &Labels, name: Option<&[u8]>) -> Vec<u8> {
    let mut out = Vec::with_capacity(24 * (tree.cost(0) as usize + 2));
    if let Some(name) = name {
        out.extend_from_slice(&[b"map-name ", name, b"\n"].concat());
    }
    out.extend_from_slice(format!("mode {}\n", A::VERSION).as_bytes());
    let mut printer = Printer { tree, labels, is_compact: false, line: Line::new(), out };
    printer.entries(0, A::default(), 0, None);
    printer.out
}

/// Returns the text of the certificate.
pub fn certificate<A: Address>(tree: &Tree<A>, labels: &Labels, is_compact: bool) -> Vec<u8> {
    let format = if is_compact { 2 } else { 1 };
    let mut out = format!("flowlabel-cert {format} {} {}\n", A::VERSION, labels.len()).into_bytes();
    for number in 0..labels.len() {
        out.extend_from_slice(labels.text(number));
        out.push(b'\n');
    }
    let mut printer = Printer { tree, labels, is_compact, line: Line::new(), out };
    printer.nodes(0, A::default(), 0);
    printer.out
}

impl<A: Address> Printer<'_, A> {
    fn entry(&mut self, low: A, length: u32, label: u16) {
        low.print(&mut self.line);
        self.line.byte(b'/');
        self.line.octet(length as u8);
        self.line.byte(b' ');
        self.line.text(self.labels.text(u32::from(label)));
        self.line.byte(b'\n');
        self.line.end(&mut self.out);
    }

    /// Prints the entries of a node's block and of the blocks in it, under this label from above.
    fn entries(&mut self, number: usize, low: A, length: u32, above: Option<u16>) {
        let label = match above {
            Some(label) if self.tree.has(number, label) => label,
            _ => {
                let label = self.tree.least(number);
                self.entry(low, length, label);
                label
            }
        };
        match self.tree.kind(number) {
            Kind::Leaf => {}
            Kind::Fork(lower, upper) => {
                self.entries(lower, low, length + 1, Some(label));
                self.entries(upper, low + A::half(length), length + 1, Some(label));
            }
            Kind::Path(path, end) if label == path.side => self.entries(end, path.low, length + path.bits, Some(label)),
            // Only a path of one bit passes on another label.
            Kind::Path(path, end) => {
                let middle = low + A::half(length);
                if path.low == middle {
                    self.entry(low, length + 1, path.side);
                    self.entries(end, middle, length + 1, Some(label));
                } else {
                    self.entries(end, low, length + 1, Some(label));
                    self.entry(middle, length + 1, path.side);
                }
            }
        }
    }

    /// Prints the labels of a node, and the end of its line.
    fn set(&mut self, number: usize) {
        self.tree.labels_of(number, |labels| print_set(labels, &mut self.line, &mut self.out));
    }

    /// Prints the lines of a node and of those below it.
    fn nodes(&mut self, number: usize, low: A, length: u32) {
        let kind = self.tree.kind(number);
        match kind {
            Kind::Path(path, end) if path.bits > 1 && self.is_compact => self.chain(number, &path, end, length),
            Kind::Path(path, end) => self.path(number, &path, end, length),
            Kind::Leaf => {
                self.line.byte(b'l');
                self.set(number);
            }
            Kind::Fork(lower, upper) => {
                self.inner(b'n', number);
                self.set(number);
                self.nodes(lower, low, length + 1);
                self.nodes(upper, low + A::half(length), length + 1);
            }
        }
    }

    fn inner(&mut self, letter: u8, number: usize) {
        self.line.byte(letter);
        self.line.byte(b' ');
        self.line.number(u64::from(self.tree.cost(number)));
    }

    fn chain(&mut self, number: usize, path: &Path<A>, end: usize, length: u32) {
        self.inner(b'c', number);
        self.line.byte(b' ');
        for bit in length..length + path.bits {
            self.line.byte(if is_upper(path.low, bit) { b'1' } else { b'0' });
        }
        self.line.byte(b' ');
        self.line.number(u64::from(path.side));
        self.set(number);
        self.nodes(end, path.low, length + path.bits);
    }

    /// Prints a path bit by bit: an inner node for each bit, all but the last with the same line, and the leaf beside
    /// it.
    fn path(&mut self, number: usize, path: &Path<A>, end: usize, length: u32) {
        let (mut inner, mut side) = (Line::new(), Line::new());
        inner.text(b"n ");
        inner.number(u64::from(self.tree.cost(number)));
        side.byte(b'l');
        for line in [&mut inner, &mut side] {
            line.byte(b' ');
            line.number(u64::from(path.side));
            line.byte(b'\n');
        }
        let united = if self.tree.has(end, path.side) { 0 } else { 1 };
        let mut behind = 0;
        for bit in length..length + path.bits {
            if bit + united < length + path.bits {
                self.out.extend_from_slice(inner.as_bytes());
            } else {
                self.inner(b'n', number);
                self.set_with(end, path.side);
            }
            if is_upper(path.low, bit) {
                self.out.extend_from_slice(side.as_bytes());
            } else {
                behind += 1;
            }
        }
        self.nodes(end, path.low, length + path.bits);
        for _ in 0..behind {
            self.out.extend_from_slice(side.as_bytes());
        }
    }

    /// Prints the labels of a node and one that isn't among them, and the end of the line.
    fn set_with(&mut self, number: usize, other: u16) {
        let mut labels = self.tree.labels_of(number, <[u16]>::to_vec);
        labels.insert(labels.partition_point(|label| *label < other), other);
        print_set(&labels, &mut self.line, &mut self.out);
    }
}

fn print_set(labels: &[u16], line: &mut Line, out: &mut Vec<u8>) {
    for label in labels {
        line.byte(b' ');
        line.number(u64::from(*label));
        if line.len() > 1000 {
            line.end(out);
        }
    }
    line.byte(b'\n');
    line.end(out);
}

/// Returns whether an address is in the upper half of its block of this length.
fn is_upper<A: Address>(address: A, length: u32) -> bool {
    address & A::half(length) != A::default()
}
