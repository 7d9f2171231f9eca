//! `recert`: a certificate's text with chains.

use crate::certificate::{Certificate, NodeLine};
use crate::line::Line;
use crate::Fault;

/// A node line: its offset, the label of a leaf, and the number of an inner node's upper half. The lower half is the
/// next node.
struct Node {
    start: usize,
    label: Option<u16>,
    upper: u32,
}

/// Returns the text of the same certificate in format 2.
pub fn compact(mut certificate: Certificate) -> Result<Vec<u8>, Fault> {
    let text = certificate.text;
    if certificate.format == 2 {
        return Ok(text.to_vec());
    }
    let start = certificate.place;
    let width = if certificate.is_ipv6 { 128 } else { 32 };
    let mut nodes = Vec::new();
    read_nodes(&mut certificate, width, &mut nodes)?;
    if certificate.place < text.len() {
        return Err("nodes are left".into());
    }
    nodes.push(Node { start: text.len(), label: None, upper: 0 });
    let mut out = Vec::with_capacity(text.len() / 2);
    out.extend_from_slice(b"flowlabel-cert 2");
    out.extend_from_slice(&text[b"flowlabel-cert 1".len()..start]);
    write_nodes(text, &nodes, &mut out);
    Ok(out)
}

/// Reads a node and those below it, for a block of this many bits.
fn read_nodes(certificate: &mut Certificate, bits: u32, nodes: &mut Vec<Node>) -> Result<(), Fault> {
    let number = nodes.len();
    let start = certificate.place;
    let line = certificate.line()?;
    certificate.sets.clear();
    if let NodeLine::Leaf(label) = line {
        nodes.push(Node { start, label: Some(label), upper: 0 });
        return Ok(());
    }
    if bits == 0 {
        return Err("too deep".into());
    }
    nodes.push(Node { start, label: None, upper: 0 });
    read_nodes(certificate, bits - 1, nodes)?;
    nodes[number].upper = nodes.len() as u32;
    read_nodes(certificate, bits - 1, nodes)
}

/// Returns for an inner node with a leaf of this label, or with any leaf if no label is given, the label, the bit of
/// the other half, and the other node. A leaf in the lower half is preferred.
fn step(nodes: &[Node], number: usize, wanted: Option<u16>) -> Option<(u16, u8, usize)> {
    if nodes[number].label.is_some() {
        return None;
    }
    let (lower, upper) = (number + 1, nodes[number].upper as usize);
    let is_side = |label: &u16| wanted.unwrap_or(*label) == *label;
    if let Some(label) = nodes[lower].label.filter(is_side) {
        return Some((label, b'1', upper));
    }
    nodes[upper].label.filter(is_side).map(|label| (label, b'0', lower))
}

fn write_nodes(text: &[u8], nodes: &[Node], out: &mut Vec<u8>) {
    let mut left = vec![0];
    let mut bits = Vec::new();
    let mut line = Line::new();
    while let Some(number) = left.pop() {
        let own = &text[nodes[number].start..nodes[number + 1].start];
        bits.clear();
        let mut end = number;
        let mut side = None;
        while let Some((label, bit, next)) = step(nodes, end, side) {
            side = Some(label);
            bits.push(bit);
            end = next;
        }
        let Some(side) = side.filter(|_| bits.len() > 1) else {
            out.extend_from_slice(own);
            if nodes[number].label.is_none() {
                left.extend([nodes[number].upper as usize, number + 1]);
            }
            continue;
        };
        // `n COST NUMBERS` becomes `c COST BITS LABEL NUMBERS`.
        let cost = own[2..].iter().take_while(|byte| byte.is_ascii_digit()).count();
        line.byte(b'c');
        line.text(&own[1..2 + cost]);
        line.byte(b' ');
        line.text(&bits);
        line.byte(b' ');
        line.number(u64::from(side));
        line.end(out);
        out.extend_from_slice(&own[2 + cost..]);
        left.push(end);
    }
}
