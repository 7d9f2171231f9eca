use crate::line::Line;
use crate::reports::Labeller;
use crate::row::{print_address, Row};

#[derive(Clone, Copy)]
pub enum Field {
    Source,
    Destination,
    SourcePort,
    DestinationPort,
    Protocol,
    Flags,
    SourceLabel,
    DestinationLabel,
}

impl Field {
    pub fn named(name: &str) -> Option<Field> {
        Some(match name {
            "sip" => Field::Source,
            "dip" => Field::Destination,
            "sport" => Field::SourcePort,
            "dport" => Field::DestinationPort,
            "proto" => Field::Protocol,
            "flags" => Field::Flags,
            "src-label" => Field::SourceLabel,
            "dst-label" => Field::DestinationLabel,
            _ => return None,
        })
    }
}

/// The parts of a key as numbers, with 0 for a part that the key does not have.
#[derive(Clone, Copy, Default, PartialEq)]
struct Key {
    addresses: [u128; 2],
    /// Whether the addresses are of IPv6, both ports, the protocol and the flags, in one or two bytes each.
    numbers: u64,
    labels: [u32; 2],
}

#[derive(Clone, Copy, Default)]
struct Totals {
    records: u64,
    packets: u128,
    octets: u128,
}

/// The groups of rows by their keys, in the order of their first rows.
pub struct Groups {
    fields: Vec<Field>,
    keys: Vec<Key>,
    totals: Vec<Totals>,
    /// A hash table of the groups' numbers plus one. 0 is an empty slot.
    slots: Vec<u32>,
    latest: usize,
}

impl Key {
    #[inline(always)]
    fn hash(&self) -> usize {
        let mut hash = 0x9e37_79b9_7f4a_7c15;
        let mut mix = |word: u64| {
            let product = u128::from(word ^ hash) * 0xa076_1d64_78bd_642f;
            hash = product as u64 ^ (product >> 64) as u64;
        };
        for address in self.addresses {
            mix(address as u64);
            if address >> 64 != 0 {
                mix((address >> 64) as u64);
            }
        }
        mix(self.numbers);
        mix(u64::from(self.labels[0]) << 32 | u64::from(self.labels[1]));
        hash as usize
    }
}

impl Groups {
    pub fn new(fields: Vec<Field>) -> Groups {
        Groups { fields, keys: Vec::new(), totals: Vec::new(), slots: vec![0; 1024], latest: 0 }
    }

    #[inline(always)]
    fn key(&self, row: &Row, labeller: Option<&Labeller>) -> Key {
        let mut key = Key::default();
        let label = |address: u128| labeller.map_or(0, |labeller| labeller.number(row.is_v6, address));
        for field in &self.fields {
            match field {
                Field::Source => {
                    (key.addresses[0], key.numbers) = (row.source, key.numbers | u64::from(row.is_v6) << 56)
                }
                Field::Destination => {
                    (key.addresses[1], key.numbers) = (row.destination, key.numbers | u64::from(row.is_v6) << 56)
                }
                Field::SourcePort => key.numbers |= u64::from(row.source_port),
                Field::DestinationPort => key.numbers |= u64::from(row.destination_port) << 16,
                Field::Protocol => key.numbers |= u64::from(row.protocol) << 32,
                Field::Flags => key.numbers |= u64::from(row.flags) << 40,
                Field::SourceLabel => key.labels[0] = label(row.source),
                Field::DestinationLabel => key.labels[1] = label(row.destination),
            }
        }
        key
    }

    #[inline(always)]
    pub fn add(&mut self, row: &Row, labeller: Option<&Labeller>) {
        let key = self.key(row, labeller);
        if self.keys.get(self.latest) != Some(&key) {
            self.latest = self.place_of(&key);
        }
        let totals = &mut self.totals[self.latest];
        totals.records += 1;
        totals.packets += u128::from(row.packets);
        totals.octets += u128::from(row.octets);
    }

    /// Returns the number of a key's group, which is new if the key is.
    #[inline(always)]
    fn place_of(&mut self, key: &Key) -> usize {
        let mask = self.slots.len() - 1;
        let mut slot = key.hash() & mask;
        while self.slots[slot] != 0 {
            let number = self.slots[slot] as usize - 1;
            if self.keys[number] == *key {
                return number;
            }
            slot = (slot + 1) & mask;
        }
        self.keys.push(*key);
        self.totals.push(Totals::default());
        self.slots[slot] = self.keys.len() as u32;
        if 2 * self.keys.len() > self.slots.len() {
            self.grow();
        }
        self.keys.len() - 1
    }

    fn grow(&mut self) {
        let mask = 2 * self.slots.len() - 1;
        self.slots = vec![0; mask + 1];
        for (key, number) in self.keys.iter().zip(1..) {
            let mut slot = key.hash() & mask;
            while self.slots[slot] != 0 {
                slot = (slot + 1) & mask;
            }
            self.slots[slot] = number;
        }
    }

    pub fn print(&self, labeller: Option<&Labeller>, out: &mut Vec<u8>) {
        let mut line = Line::new();
        for (key, totals) in self.keys.iter().zip(&self.totals) {
            let is_v6 = key.numbers >> 56 == 1;
            for field in &self.fields {
                match field {
                    Field::Source => print_address(is_v6, key.addresses[0], &mut line),
                    Field::Destination => print_address(is_v6, key.addresses[1], &mut line),
                    Field::SourcePort => line.number(key.numbers & 0xffff),
                    Field::DestinationPort => line.number(key.numbers >> 16 & 0xffff),
                    Field::Protocol => line.number(key.numbers >> 32 & 0xff),
                    Field::Flags => line.number(key.numbers >> 40 & 0xffff),
                    Field::SourceLabel => line.text(labeller.map_or(b"", |labeller| labeller.text(key.labels[0]))),
                    Field::DestinationLabel => line.text(labeller.map_or(b"", |labeller| labeller.text(key.labels[1]))),
                }
                line.byte(b'|');
            }
            line.number(totals.records);
            for sum in [totals.packets, totals.octets] {
                line.byte(b'|');
                match u64::try_from(sum) {
                    Ok(sum) => line.number(sum),
                    Err(_) => line.text(sum.to_string().as_bytes()),
                }
            }
            line.byte(b'\n');
            line.end(out);
        }
    }
}
