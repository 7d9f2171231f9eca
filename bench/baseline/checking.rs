//! `check`: one walk over the certificate's text, the map's stretches and the list's entries.

use crate::address::Address;
use crate::certificate::{Certificate, Claim, NodeLine};
use crate::labels::Labels;
use crate::map::{Map, Statement};
use crate::stretches::{Stretches, NO_LABEL};
use crate::tree::{intersect, unite};
use crate::Fault;

struct Checker<'a, A> {
    certificate: Certificate<'a>,
    /// The stretches. Their labels, like those of the entries, are numbered as in the certificate.
    stretches: Stretches<A>,
    entries: Vec<Statement<A>>,
    stretch: usize,
    entry: usize,
    exact: Vec<u16>,
}

/// Returns the number of a list's entries if the certificate shows that the list is a shortest one for the map.
pub fn check<A: Address>(map: Map<A>, list: Map<A>, certificate: Certificate) -> Result<usize, Fault> {
    let mut stretches = Stretches::new(&map.statements, map.default.unwrap_or(NO_LABEL), false);
    let known = |labels: &Labels| -> Vec<u32> {
        (0..labels.len()).map(|number| certificate.labels.number(labels.text(number)).unwrap_or(NO_LABEL)).collect()
    };
    let (of_map, of_list) = (known(&map.labels), known(&list.labels));
    stretches.labels.iter_mut().for_each(|label| *label = of_map[*label as usize]);
    let mut entries = list.statements;
    entries.iter_mut().for_each(|entry| entry.label = of_list[entry.label as usize]);
    drop(map.statements);
    let mut checker = Checker { certificate, stretches, entries, stretch: 0, entry: 0, exact: Vec::new() };
    let root = checker.node(A::default(), 0, NO_LABEL)?;
    if checker.certificate.place < checker.certificate.text.len() || checker.entries.len() as u64 > root.cost + 1 {
        return Err("nodes are left, or the bound isn't met".into());
    }
    Ok(checker.entries.len())
}

impl<A: Address> Checker<'_, A> {
    /// Returns the label of the longest entry that covers a block, given the one above the block.
    #[inline(always)]
    fn covering(&mut self, low: A, length: u32, above: u32) -> u32 {
        match self.entries.get(self.entry) {
            Some(entry) if entry.first == low && entry.last == low + A::hosts(length) => {
                self.entry += 1;
                entry.label
            }
            _ => above,
        }
    }

    #[inline(always)]
    fn leaf(&mut self, low: A, length: u32, label: u16, covering: u32) -> Result<(), Fault> {
        let last = low + A::hosts(length);
        while self.stretches.last(self.stretch) < low {
            self.stretch += 1;
        }
        let is_settled = self.stretches.last(self.stretch) >= last;
        let holds_entry = self.entries.get(self.entry).is_some_and(|entry| entry.first <= last);
        let settled = self.stretches.labels[self.stretch];
        if is_settled && settled == u32::from(label) && !holds_entry && covering == settled {
            return Ok(());
        }
        Err("a leaf isn't settled, or the list differs".into())
    }

    /// Reads the next node, which is for this block, and returns its claim.
    fn node(&mut self, low: A, length: u32, above: u32) -> Result<Claim, Fault> {
        let covering = self.covering(low, length, above);
        match self.certificate.line()? {
            NodeLine::Leaf(label) => {
                self.leaf(low, length, label, covering)?;
                let start = self.certificate.sets.len();
                self.certificate.sets.push(label);
                Ok(Claim { cost: 0, start, end: start + 1 })
            }
            NodeLine::Inner(_) if length == A::WIDTH => Err("too deep".into()),
            NodeLine::Inner(claim) => {
                let lower = self.node(low, length + 1, covering)?;
                let upper = self.node(low + A::half(length), length + 1, covering)?;
                let cost = lower.cost + upper.cost + self.join(lower, upper);
                self.accept(claim, cost)
            }
            NodeLine::Chain(claim, bits, side) => {
                let end = self.path(low, length, covering, bits, side)?;
                let sets = &self.certificate.sets;
                let has_side = sets[end.start..end.end].contains(&side);
                self.exact.clear();
                if has_side || bits.len() > 1 {
                    self.exact.push(side);
                } else {
                    unite(&[side], &sets[end.start..end.end], &mut self.exact);
                }
                self.accept(claim, end.cost + u64::from(!has_side))
            }
        }
    }

    /// Descends the bits of a chain to its end, and returns the claim there.
    fn path(&mut self, low: A, length: u32, covering: u32, bits: &[u8], side: u16) -> Result<Claim, Fault> {
        let Some((bit, rest)) = bits.split_first() else {
            return Err("too few bits".into());
        };
        if length == A::WIDTH {
            return Err("too deep".into());
        }
        let (below, middle) = (length + 1, low + A::half(length));
        if *bit == b'1' {
            self.aside(low, below, covering, side)?;
            return self.path_below(middle, below, covering, rest, side);
        }
        let end = self.path_below(low, below, covering, rest, side)?;
        self.aside(middle, below, covering, side)?;
        Ok(end)
    }

    fn path_below(&mut self, low: A, length: u32, above: u32, bits: &[u8], side: u16) -> Result<Claim, Fault> {
        if bits.is_empty() {
            return self.node(low, length, above);
        }
        let covering = self.covering(low, length, above);
        self.path(low, length, covering, bits, side)
    }

    fn aside(&mut self, low: A, length: u32, above: u32, side: u16) -> Result<(), Fault> {
        let covering = self.covering(low, length, above);
        self.leaf(low, length, side, covering)
    }

    /// Builds the set of two halves' exact claim, and returns its cost beyond that of the halves.
    #[inline(always)]
    fn join(&mut self, lower: Claim, upper: Claim) -> u64 {
        let sets = &self.certificate.sets;
        let (lower, upper) = (&sets[lower.start..lower.end], &sets[upper.start..upper.end]);
        self.exact.clear();
        if let ([label], [other]) = (lower, upper) {
            if label == other {
                self.exact.push(*label);
                return 0;
            }
        }
        intersect(lower, upper, &mut self.exact);
        if self.exact.is_empty() {
            unite(lower, upper, &mut self.exact);
            return 1;
        }
        0
    }

    /// Returns a claim if it claims no more than the exact claim, which has this cost, and drops the sets of its nodes.
    #[inline(always)]
    fn accept(&mut self, claim: Claim, cost: u64) -> Result<Claim, Fault> {
        let sets = &self.certificate.sets[claim.start..claim.end];
        let mut claimed = sets.iter();
        let has_all = || self.exact.iter().all(|label| claimed.any(|other| other == label));
        if claim.cost > cost || claim.cost == cost && !{ has_all }() {
            return Err("a node claims too much".into());
        }
        self.certificate.sets.truncate(claim.end);
        Ok(claim)
    }
}
