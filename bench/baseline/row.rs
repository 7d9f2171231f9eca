use crate::address::Address;
use crate::line::Line;

/// The offset and the length of a field in a record. Both are 0 if the record does not have the field.
#[derive(Clone, Copy, Default)]
pub struct Place {
    pub offset: usize,
    pub length: usize,
}

/// The elements of a row, and those that replace packets and octets in a record without these.
pub const ELEMENTS: [u16; 14] = [8, 12, 27, 28, 7, 11, 4, 6, 2, 1, 86, 85, 152, 153];

/// The places of the elements in a record, in their order.
pub type Places = [Place; ELEMENTS.len()];

/// The enterprise number of the elements of the reverse direction.
pub const REVERSE: u32 = 29305;

/// Returns whether an element may have this length.
pub fn fits(element: u16, length: usize) -> bool {
    match element {
        1 | 2 | 85 | 86 => (1..=8).contains(&length),
        4 => length == 1,
        6 | 7 | 11 => length == 1 || length == 2,
        8 | 12 => length == 4,
        27 | 28 => length == 16,
        152 | 153 => length == 8,
        _ => false,
    }
}

#[derive(Clone, Copy)]
pub struct Row {
    pub is_v6: bool,
    pub source: u128,
    pub destination: u128,
    pub source_port: u16,
    pub destination_port: u16,
    pub protocol: u8,
    pub flags: u16,
    pub packets: u64,
    pub octets: u64,
    pub start: u64,
    pub end: u64,
}

pub const TITLE: &str = "sip|dip|sport|dport|proto|flags|packets|bytes|stime|etime";

/// Returns a field as a number, or 0 if there is no field.
#[inline(always)]
fn number(record: &[u8], place: Place) -> u64 {
    let field = &record[place.offset..place.offset + place.length];
    match field.len() {
        8 => u64::from_be_bytes(field.try_into().unwrap()),
        4 => u64::from(u32::from_be_bytes(field.try_into().unwrap())),
        2 => u64::from(u16::from_be_bytes(field.try_into().unwrap())),
        1 => u64::from(field[0]),
        _ => field.iter().fold(0, |number, byte| number << 8 | u64::from(*byte)),
    }
}

#[inline(always)]
fn number_128(record: &[u8], place: Place) -> u128 {
    u128::from_be_bytes(record[place.offset..place.offset + 16].try_into().unwrap())
}

impl Row {
    /// Returns the row of a record that has the addresses of the version.
    #[inline(always)]
    pub fn new(record: &[u8], is_v6: bool, places: &Places) -> Row {
        let [source_4, destination_4, source_6, destination_6, rest @ ..] = *places;
        let [source_port, destination_port, protocol, flags, packets, octets, all_packets, all_octets, start, end] =
            rest;
        let (source, destination) = if is_v6 {
            (number_128(record, source_6), number_128(record, destination_6))
        } else {
            (u128::from(number(record, source_4)), u128::from(number(record, destination_4)))
        };
        Row {
            is_v6,
            source,
            destination,
            source_port: number(record, source_port) as u16,
            destination_port: number(record, destination_port) as u16,
            protocol: number(record, protocol) as u8,
            flags: number(record, flags) as u16,
            packets: number(record, if packets.length > 0 { packets } else { all_packets }),
            octets: number(record, if octets.length > 0 { octets } else { all_octets }),
            start: number(record, start),
            end: number(record, end),
        }
    }

    /// Returns the row of the reverse direction, from the places of its elements, if there were packets in that
    /// direction.
    pub fn back(&self, record: &[u8], places: &Places) -> Option<Row> {
        let [.., flags, packets, octets, all_packets, all_octets, start, end] = *places;
        let or = |place: Place, other| if place.length > 0 { number(record, place) } else { other };
        let packets = or(packets, number(record, all_packets));
        (packets > 0).then(|| Row {
            source: self.destination,
            destination: self.source,
            source_port: self.destination_port,
            destination_port: self.source_port,
            flags: number(record, flags) as u16,
            packets,
            octets: or(octets, number(record, all_octets)),
            start: or(start, self.start),
            end: or(end, self.end),
            ..*self
        })
    }

    /// Prints the cells with a bar after each, and calls back with the length of each.
    #[inline(always)]
    pub fn print(&self, line: &mut Line, mut cell: impl FnMut(usize, usize)) {
        let mut start = line.len();
        let mut column = 0;
        let mut end_cell = |line: &mut Line| {
            cell(column, line.len() - start);
            line.byte(b'|');
            start = line.len();
            column += 1;
        };
        for address in [self.source, self.destination] {
            print_address(self.is_v6, address, line);
            end_cell(line);
        }
        let numbers = [self.source_port, self.destination_port, u16::from(self.protocol), self.flags].map(u64::from);
        for number in numbers.into_iter().chain([self.packets, self.octets, self.start, self.end]) {
            line.number(number);
            end_cell(line);
        }
    }
}

#[inline(always)]
pub fn print_address(is_v6: bool, address: u128, line: &mut Line) {
    if is_v6 {
        address.print(line)
    } else {
        (address as u32).print(line)
    }
}
