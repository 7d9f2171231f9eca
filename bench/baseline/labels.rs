/// Texts of labels, each once, numbered in the order in which they were added.
pub struct Labels {
    bytes: Vec<u8>,
    ends: Vec<u32>,
    /// A hash table of the numbers plus one. 0 is an empty slot.
    slots: Vec<u32>,
    latest: u32,
}

fn hash(text: &[u8]) -> usize {
    const FACTOR: u64 = 0x9e37_79b9_7f4a_7c15;
    let step = |hash: u64, word: u64| (hash.rotate_left(5) ^ word).wrapping_mul(FACTOR);
    let words = text.chunks_exact(8);
    let tail = words.remainder().iter().fold(0, |word, byte| word << 8 | u64::from(*byte));
    let hash = words.fold(text.len() as u64, |hash, word| step(hash, u64::from_le_bytes(word.try_into().unwrap())));
    (step(hash, tail) >> 32) as usize
}

impl Labels {
    pub fn new() -> Labels {
        Labels { bytes: Vec::new(), ends: Vec::new(), slots: vec![0; 1024], latest: 0 }
    }

    pub fn len(&self) -> u32 {
        self.ends.len() as u32
    }

    #[inline(always)]
    pub fn text(&self, number: u32) -> &[u8] {
        let start = if number == 0 { 0 } else { self.ends[number as usize - 1] };
        &self.bytes[start as usize..self.ends[number as usize] as usize]
    }

    /// Returns the slot of a text, or the empty slot where it belongs.
    fn slot_of(&self, text: &[u8]) -> usize {
        let mask = self.slots.len() - 1;
        let mut slot = hash(text) & mask;
        while self.slots[slot] != 0 && self.text(self.slots[slot] - 1) != text {
            slot = (slot + 1) & mask;
        }
        slot
    }

    pub fn number(&self, text: &[u8]) -> Option<u32> {
        self.slots[self.slot_of(text)].checked_sub(1)
    }

    /// Returns the number of a text, which is new if the text is.
    #[inline(always)]
    pub fn enter(&mut self, text: &[u8]) -> u32 {
        if self.latest < self.len() && self.text(self.latest) == text {
            return self.latest;
        }
        self.latest = self.enter_other(text);
        self.latest
    }

    fn enter_other(&mut self, text: &[u8]) -> u32 {
        let slot = self.slot_of(text);
        if self.slots[slot] != 0 {
            return self.slots[slot] - 1;
        }
        self.bytes.extend_from_slice(text);
        self.ends.push(self.bytes.len() as u32);
        self.slots[slot] = self.len();
        if 2 * self.ends.len() > self.slots.len() {
            self.slots = vec![0; 2 * self.slots.len()];
            for number in 0..self.len() {
                let slot = self.slot_of(self.text(number));
                self.slots[slot] = number + 1;
            }
        }
        self.len() - 1
    }
}
