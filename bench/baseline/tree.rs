use crate::address::Address;
use crate::stretches::Stretches;

/// A set of labels: a single label, or the position of several labels among those of the tree.
#[derive(Clone, Copy)]
struct Set {
    start: u32,
    length: u32,
}

/// A block with the cost and the labels of its exact claim.
#[derive(Clone, Copy)]
struct Node {
    /// 0 is a leaf. With the bit PATH it is a path, whose end is the next node. Otherwise it is the number of the upper
    /// half, and the lower half is the next node.
    behind: u32,
    cost: u32,
    set: Set,
}

const PATH: u32 = 1 << 31;

/// Some bits from a block to one inside it, if all other halves on the path have one label.
#[derive(Clone, Copy)]
pub struct Path<A> {
    /// The first address of the block at the end.
    pub low: A,
    pub bits: u32,
    pub side: u16,
}

/// The content of a block.
pub enum Kind<A> {
    Leaf,
    /// The numbers of both halves.
    Fork(usize, usize),
    /// A path, and the number of the node at its end.
    Path(Path<A>, usize),
}

/// The binary tree of stretches with the exact claim of each node, in preorder, in which consecutive nodes with one
/// leaf are joined.
pub struct Tree<A> {
    nodes: Vec<Node>,
    paths: Vec<Path<A>>,
    labels: Vec<u16>,
    common: Vec<u16>,
}

/// A block and the range of stretches that it meets.
#[derive(Clone, Copy)]
struct Block<A> {
    low: A,
    length: u32,
    from: usize,
    to: usize,
}

impl<A: Address> Block<A> {
    /// Returns the block without the first stretch if the next one begins where the block does.
    fn without_lower(self, next: A) -> Block<A> {
        Block { from: self.from + usize::from(next == self.low), ..self }
    }

    /// Returns the block without the last stretch if the one before it ends where the block does.
    fn without_upper(self, end: A) -> Block<A> {
        Block { to: self.to - usize::from(end == self.low + A::hosts(self.length)), ..self }
    }
}

impl<A: Address> Tree<A> {
    pub fn new(stretches: &Stretches<A>) -> Tree<A> {
        let nodes = Vec::with_capacity(2 * stretches.starts.len());
        let mut tree = Tree { nodes, paths: Vec::new(), labels: Vec::new(), common: Vec::new() };
        tree.build(stretches, Block { low: A::default(), length: 0, from: 0, to: stretches.starts.len() - 1 });
        tree
    }

    pub fn kind(&self, number: usize) -> Kind<A> {
        match self.nodes[number].behind {
            0 => Kind::Leaf,
            behind if behind & PATH != 0 => Kind::Path(self.paths[(behind & !PATH) as usize], number + 1),
            behind => Kind::Fork(number + 1, behind as usize),
        }
    }

    pub fn cost(&self, number: usize) -> u32 {
        self.nodes[number].cost
    }

    /// Returns the label of a set of one label, or the least label of another set.
    pub fn least(&self, number: usize) -> u16 {
        let set = self.nodes[number].set;
        if set.length == 1 {
            set.start as u16
        } else {
            self.labels[set.start as usize]
        }
    }

    pub fn has(&self, number: usize, label: u16) -> bool {
        let set = self.nodes[number].set;
        if set.length == 1 {
            set.start as u16 == label
        } else {
            self.many(set).binary_search(&label).is_ok()
        }
    }

    /// Calls the function with the labels of a node's set, in ascending order.
    #[inline(always)]
    pub fn labels_of<T>(&self, number: usize, call: impl FnOnce(&[u16]) -> T) -> T {
        let set = self.nodes[number].set;
        if set.length == 1 {
            call(&[set.start as u16])
        } else {
            call(self.many(set))
        }
    }

    fn many(&self, set: Set) -> &[u16] {
        &self.labels[set.start as usize..(set.start + set.length) as usize]
    }

    fn push(&mut self, behind: u32) -> usize {
        self.nodes.push(Node { behind, cost: 0, set: Set { start: 0, length: 1 } });
        self.nodes.len() - 1
    }

    /// Builds the node of a block, and returns its number.
    fn build(&mut self, stretches: &Stretches<A>, block: Block<A>) -> usize {
        if block.from == block.to {
            let number = self.push(0);
            self.nodes[number].set.start = stretches.labels[block.from];
            return number;
        }
        if let Some((side, end)) = path_from(stretches, block) {
            return self.build_path(stretches, block, side, end);
        }
        self.build_fork(stretches, block)
    }

    fn build_fork(&mut self, stretches: &Stretches<A>, block: Block<A>) -> usize {
        let number = self.push(0);
        let middle = block.low + A::half(block.length);
        let count = stretches.starts[block.from..=block.to].partition_point(|start| *start <= middle);
        let at_middle = block.from + count - 1;
        let below = if stretches.starts[at_middle] == middle { at_middle - 1 } else { at_middle };
        let length = block.length + 1;
        let lower = self.build(stretches, Block { length, to: below, ..block });
        let upper = self.build(stretches, Block { low: middle, length, from: at_middle, to: block.to });
        let (is_common, set) = self.join(self.nodes[lower].set, self.nodes[upper].set);
        let cost = self.nodes[lower].cost + self.nodes[upper].cost + u32::from(!is_common);
        self.nodes[number] = Node { behind: upper as u32, cost, set };
        number
    }

    fn build_path(&mut self, stretches: &Stretches<A>, block: Block<A>, side: u32, end: Block<A>) -> usize {
        let mut end = furthest(stretches, side, end);
        let is_leaf = end.from == end.to && stretches.labels[end.from] == side;
        // Of two leaves with the label the lower one is beside the path.
        end.low = if is_leaf { end.low | A::half(end.length - 1) } else { end.low };
        let bits = end.length - block.length;
        let number = self.push(PATH | self.paths.len() as u32);
        self.paths.push(Path { low: end.low, bits, side: side as u16 });
        let below = self.build(stretches, end);
        let alone = Set { start: side, length: 1 };
        let has_side = self.has(below, side as u16);
        self.nodes[number].cost = self.nodes[below].cost + u32::from(!has_side);
        self.nodes[number].set = if has_side || bits > 1 { alone } else { self.join(alone, self.nodes[below].set).1 };
        number
    }

    /// Returns the labels that two sets share, or all their labels if they share none, and whether they share any.
    fn join(&mut self, one: Set, other: Set) -> (bool, Set) {
        if one.length == 1 && other.length == 1 && one.start == other.start {
            return (true, one);
        }
        let mut joined = std::mem::take(&mut self.common);
        joined.clear();
        let alone = [[one.start as u16], [other.start as u16]];
        let one = if one.length == 1 { &alone[0][..] } else { self.many(one) };
        let other = if other.length == 1 { &alone[1][..] } else { self.many(other) };
        intersect(one, other, &mut joined);
        let is_common = !joined.is_empty();
        if !is_common {
            unite(one, other, &mut joined);
        }
        let set = match joined.as_slice() {
            [label] => Set { start: u32::from(*label), length: 1 },
            labels => {
                let set = Set { start: self.labels.len() as u32, length: labels.len() as u32 };
                self.labels.extend_from_slice(labels);
                set
            }
        };
        self.common = joined;
        (is_common, set)
    }
}

/// Appends the labels that two ascending lists share.
pub fn intersect(one: &[u16], other: &[u16], out: &mut Vec<u16>) {
    let (mut i, mut j) = (0, 0);
    while i < one.len() && j < other.len() {
        if one[i] == other[j] {
            out.push(one[i]);
        }
        let (next, after) = (one[i] <= other[j], other[j] <= one[i]);
        i += usize::from(next);
        j += usize::from(after);
    }
}

/// Appends all labels of two ascending lists that share none.
pub fn unite(one: &[u16], other: &[u16], out: &mut Vec<u16>) {
    let (mut i, mut j) = (0, 0);
    while i < one.len() && j < other.len() {
        if one[i] < other[j] {
            out.push(one[i]);
            i += 1;
        } else {
            out.push(other[j]);
            j += 1;
        }
    }
    out.extend_from_slice(&one[i..]);
    out.extend_from_slice(&other[j..]);
}

/// If a half of the block is in one stretch, returns the label of that half, the lower half first, and the block that
/// is reached by leaving out halves with this label only.
fn path_from<A: Address>(stretches: &Stretches<A>, block: Block<A>) -> Option<(u32, Block<A>)> {
    let Block { low, length, from, to } = block;
    // The stretches between the first and the last one cover the addresses from `first` to `last`.
    let (first, last) = (stretches.starts[from + 1], stretches.starts[to] - A::ONE);
    let (side, other_side) = (stretches.labels[from], stretches.labels[to]);
    if side == other_side {
        let shared = (first ^ last).leading_zeros();
        if to == from + 1 {
            return Some((side, Block { low: first, length: shared + 1, from: to, to }));
        }
        let end = Block { low: first & !A::hosts(shared), length: shared, from, to };
        return (shared > length).then(|| (side, end.without_upper(last).without_lower(first)));
    }
    let room = A::WIDTH - length;
    let ones = (!((first - low) << length)).leading_zeros().min(room);
    if ones > 0 {
        let low = low + (A::hosts(length) - A::hosts(length + ones));
        return Some((side, Block { low, length: length + ones, from, to }.without_lower(first)));
    }
    let zeros = ((last - low) << length).leading_zeros().min(room);
    (zeros > 0).then(|| (other_side, Block { length: length + zeros, ..block }.without_upper(last)))
}

/// Returns the block that is reached from a path's end by leaving out more halves with the same label.
fn furthest<A: Address>(stretches: &Stretches<A>, side: u32, end: Block<A>) -> Block<A> {
    if end.from == end.to {
        return end;
    }
    let middle = end.low + A::half(end.length);
    match path_from(stretches, end) {
        Some((same, next)) if same == side => furthest(stretches, side, next),
        Some(_) if end.to == end.from + 1 && stretches.starts[end.to] == middle && stretches.labels[end.to] == side => {
            Block { length: end.length + 1, to: end.from, ..end }
        }
        _ => end,
    }
}
