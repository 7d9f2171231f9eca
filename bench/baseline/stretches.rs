use crate::address::Address;
use crate::map::Statement;
use std::collections::BinaryHeap;

/// The value that represents a missing label.
pub const NO_LABEL: u32 = u32::MAX;

/// The stretches of addresses in which one statement is the last that covers, or no statement covers, in ascending
/// order: the start and the label of each. The first begins at 0, and each ends where the next one begins.
pub struct Stretches<A> {
    pub starts: Vec<A>,
    pub labels: Vec<u32>,
}

impl<A: Address> Stretches<A> {
    /// Returns the stretches of the statements. If no statement covers an address, its label is the default. Neighbours with
    /// one label are one stretch if they are to be joined.
    pub fn new(statements: &[Statement<A>], default: u32, are_joined: bool) -> Stretches<A> {
        let order = by_first(statements);
        let number_at = |place: usize| order.get(place).copied().unwrap_or(place as u32);
        let room = 2 * statements.len() + 1;
        let mut stretches = Stretches { starts: Vec::with_capacity(room), labels: Vec::with_capacity(room) };
        // The statements that begin at or before the current address, with the last one on top. Those below the top
        // that have ended are removed later.
        let mut open: BinaryHeap<(u32, A)> = BinaryHeap::new();
        let (mut place, mut begun, mut latest) = (A::default(), 0, None);
        loop {
            while begun < statements.len() && statements[number_at(begun) as usize].first == place {
                let number = number_at(begun);
                open.push((number, statements[number as usize].last));
                begun += 1;
            }
            while open.peek().is_some_and(|(_, last)| *last < place) {
                open.pop();
            }
            let top = open.peek();
            let winner = top.map(|(number, _)| *number);
            if latest != Some(winner) {
                latest = Some(winner);
                stretches.add(place, winner.map_or(default, |number| statements[number as usize].label), are_joined);
            }
            let end = top.filter(|(_, last)| *last < A::MAX).map(|(_, last)| *last + A::ONE);
            let start = (begun < statements.len()).then(|| statements[number_at(begun) as usize].first);
            place = match (end, start) {
                (Some(end), Some(start)) => end.min(start),
                (Some(place), None) | (None, Some(place)) => place,
                (None, None) => return stretches,
            };
        }
    }

    fn add(&mut self, start: A, label: u32, are_joined: bool) {
        if !are_joined || self.labels.last() != Some(&label) {
            self.starts.push(start);
            self.labels.push(label);
        }
    }

    /// Returns the last address of a stretch.
    pub fn last(&self, number: usize) -> A {
        self.starts.get(number + 1).map_or(A::MAX, |start| *start - A::ONE)
    }
}

/// Returns the numbers of the statements by ascending first address, or none if they are in this order.
fn by_first<A: Address>(statements: &[Statement<A>]) -> Vec<u32> {
    if statements.windows(2).all(|pair| pair[0].first <= pair[1].first) {
        return Vec::new();
    }
    let mut order: Vec<(A, u32)> = statements.iter().map(|statement| statement.first).zip(0..).collect();
    order.sort_unstable();
    order.into_iter().map(|(_, number)| number).collect()
}

/// Stretches with an entry for each of the 65,536 blocks of 16 bits, from which look-ups start.
pub struct Index<A> {
    stretches: Stretches<A>,
    /// For each block, the number of stretches that begin before it.
    before: Vec<u32>,
}

impl<A: Address> Index<A> {
    pub fn new(stretches: Stretches<A>) -> Index<A> {
        let mut count = 0;
        let before = (0..=1 << 16).map(|top| {
            while count < stretches.starts.len() && stretches.starts[count].top() < top {
                count += 1;
            }
            count as u32
        });
        Index { before: before.collect(), stretches }
    }

    #[inline(always)]
    pub fn label(&self, address: A) -> u32 {
        let (from, to) = (self.before[address.top()] as usize, self.before[address.top() + 1] as usize);
        let count = from + self.stretches.starts[from..to].partition_point(|start| *start <= address);
        self.stretches.labels[count - 1]
    }
}
