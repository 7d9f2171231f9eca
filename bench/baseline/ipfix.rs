//! Reading an IPFIX File, message by message.

use crate::row::{fits, Place, Places, Row, ELEMENTS, REVERSE};
use crate::Fault;
use std::collections::HashMap;
use std::fs::File;
use std::io::{BufRead, BufReader, Read};

/// The length in a template that means that each value has its own length.
const VARIABLE: usize = 65535;

struct Template {
    is_options: bool,
    /// Whether its rows are of IPv6, if it has rows.
    is_v6: Option<bool>,
    /// The minimum length of a record.
    least: usize,
    /// Whether a record may have a row of the reverse direction.
    has_back: bool,
    /// The places of both directions, if all fields have fixed lengths.
    places: Option<[Places; 2]>,
    /// The direction of each field and its index among the elements, and its length.
    fields: Vec<(Option<(usize, usize)>, usize)>,
}

/// A field specifier: the enterprise number, if there is one, the number of the element, and the length.
type Field = (Option<u32>, u16, usize);

#[derive(Default)]
pub struct Counts {
    pub messages: u64,
    pub templates: [u64; 2],
    pub withdrawals: u64,
    pub data_sets: u64,
    pub skipped_sets: u64,
    pub records: [u64; 2],
    pub rows: u64,
}

/// The state while a File is read.
#[derive(Default)]
pub struct Decoder {
    /// The templates by domain and ID.
    templates: HashMap<(u32, u16), Template>,
    pub counts: Counts,
}

fn u16_at(bytes: &[u8], place: usize) -> u16 {
    u16::from_be_bytes([bytes[place], bytes[place + 1]])
}

/// Takes the first `length` bytes.
fn take<'a>(rest: &mut &'a [u8], length: usize) -> Result<&'a [u8], Fault> {
    if length > rest.len() {
        return Err("a part passes the end".into());
    }
    let (front, back) = rest.split_at(length);
    *rest = back;
    Ok(front)
}

fn take_u16(rest: &mut &[u8]) -> Result<u16, Fault> {
    Ok(u16_at(take(rest, 2)?, 0))
}

impl Template {
    fn new(is_options: bool, fields: &[Field]) -> Template {
        let mut template =
            Template { is_options, is_v6: None, least: 0, has_back: false, places: None, fields: Vec::new() };
        let mut places = [Places::default(); 2];
        for (enterprise, element, length) in fields {
            let usable = ELEMENTS.iter().position(|other| other == element && fits(*element, *length));
            let direction = match enterprise {
                None => Some(0),
                Some(number) => (*number == REVERSE).then_some(1),
            };
            let slot = direction.zip(usable).filter(|(direction, number)| places[*direction][*number].length == 0);
            if let Some((direction, number)) = slot {
                places[direction][number] = Place { offset: template.least, length: *length };
            }
            template.fields.push((slot, *length));
            template.least += if *length == VARIABLE { 1 } else { *length };
        }
        template.places = fields.iter().all(|(.., length)| *length != VARIABLE).then_some(places);
        let has = |number: usize| !is_options && places[0][number].length > 0;
        template.is_v6 = if has(0) && has(1) { Some(false) } else { (has(2) && has(3)).then_some(true) };
        template.has_back = places[1][8].length > 0 || places[1][10].length > 0;
        template
    }

    /// Takes a record with fields of variable length from the start, and returns it with its places.
    fn take_record<'a>(&self, rest: &mut &'a [u8]) -> Result<(&'a [u8], [Places; 2]), Fault> {
        let record = *rest;
        let mut places = [Places::default(); 2];
        for (slot, length) in &self.fields {
            let mut length = *length;
            if length == VARIABLE {
                length = usize::from(take(rest, 1)?[0]);
                if length == 255 {
                    length = usize::from(take_u16(rest)?);
                }
            } else if let Some((direction, number)) = slot {
                places[*direction][*number] = Place { offset: record.len() - rest.len(), length };
            }
            take(rest, length)?;
        }
        Ok((record, places))
    }

    /// Calls back with each row of a record, and returns the number of rows.
    #[inline(always)]
    fn rows(&self, record: &[u8], is_v6: bool, places: &[Places; 2], each: &mut impl FnMut(&Row)) -> u64 {
        let row = Row::new(record, is_v6, &places[0]);
        each(&row);
        let back = if self.has_back { row.back(record, &places[1]) } else { None };
        back.iter().for_each(each);
        1 + u64::from(back.is_some())
    }

    /// Calls back with each row of a data set if rows are wanted, and returns the numbers of its records and rows.
    #[inline(always)]
    fn records(&self, set: &[u8], wants_rows: bool, each: &mut impl FnMut(&Row)) -> Result<(u64, u64), Fault> {
        if self.least == 0 {
            return Ok((0, 0));
        }
        let row_version = self.is_v6.filter(|_| wants_rows || self.has_back);
        let mut rows = 0;
        if let Some(places) = &self.places {
            let count = (set.len() / self.least) as u64;
            let Some(is_v6) = row_version else {
                return Ok((count, if self.is_v6.is_some() { count } else { 0 }));
            };
            set.chunks_exact(self.least).for_each(|record| rows += self.rows(record, is_v6, places, each));
            return Ok((count, rows));
        }
        let (mut rest, mut count) = (set, 0);
        while rest.len() >= self.least {
            let (record, places) = self.take_record(&mut rest)?;
            rows += match row_version {
                Some(is_v6) => self.rows(record, is_v6, &places, each),
                None => u64::from(self.is_v6.is_some()),
            };
            count += 1;
        }
        Ok((count, rows))
    }
}

impl Decoder {
    /// Reads a whole File, and calls back with each row if rows are wanted.
    pub fn read(&mut self, file: &File, wants_rows: bool, mut each: impl FnMut(&Row)) -> Result<(), Fault> {
        let mut reader = BufReader::with_capacity(1 << 18, file);
        let mut message = vec![0; 1 << 16];
        while !reader.fill_buf()?.is_empty() {
            reader.read_exact(&mut message[..16])?;
            let length = usize::from(u16_at(&message, 2));
            if u16_at(&message, 0) != 10 || length < 16 {
                return Err("no header of a message".into());
            }
            reader.read_exact(&mut message[16..length])?;
            self.counts.messages += 1;
            self.read_message(&message[..length], wants_rows, &mut each)?;
        }
        Ok(())
    }

    fn read_message(&mut self, message: &[u8], wants_rows: bool, each: &mut impl FnMut(&Row)) -> Result<(), Fault> {
        let domain = u32::from_be_bytes(message[12..16].try_into()?);
        let mut rest = &message[16..];
        while !rest.is_empty() {
            let id = take_u16(&mut rest)?;
            let length = usize::from(take_u16(&mut rest)?).checked_sub(4).ok_or("bad set length")?;
            let set = take(&mut rest, length)?;
            if id == 2 || id == 3 {
                self.read_templates(domain, id == 3, set)?;
                continue;
            }
            let Some(template) = self.templates.get(&(domain, id)) else {
                self.counts.skipped_sets += 1;
                continue;
            };
            let (records, rows) = template.records(set, wants_rows, each)?;
            self.counts.data_sets += 1;
            self.counts.records[usize::from(template.is_options)] += records;
            self.counts.rows += rows;
        }
        Ok(())
    }

    /// Reads a template set or an options template set.
    fn read_templates(&mut self, domain: u32, is_options: bool, mut rest: &[u8]) -> Result<(), Fault> {
        while rest.len() >= 4 {
            let (id, count) = (take_u16(&mut rest)?, take_u16(&mut rest)?);
            if count == 0 {
                self.withdraw(domain, id, is_options)?;
                continue;
            }
            if id < 256 || is_options && !(1..=count).contains(&take_u16(&mut rest)?) {
                return Err("bad template".into());
            }
            let mut fields = Vec::with_capacity(usize::from(count));
            for _ in 0..count {
                let (element, length) = (take_u16(&mut rest)?, take_u16(&mut rest)?);
                let enterprise = match element >> 15 {
                    0 => None,
                    _ => Some(u32::from_be_bytes(take(&mut rest, 4)?.try_into()?)),
                };
                fields.push((enterprise, element & 0x7fff, usize::from(length)));
            }
            self.counts.templates[usize::from(is_options)] += 1;
            self.templates.insert((domain, id), Template::new(is_options, &fields));
        }
        Ok(())
    }

    fn withdraw(&mut self, domain: u32, id: u16, is_options: bool) -> Result<(), Fault> {
        self.counts.withdrawals += 1;
        if id >= 256 {
            self.templates.remove(&(domain, id));
        } else if id == 2 + u16::from(is_options) {
            self.templates.retain(|(other, _), template| *other != domain || template.is_options != is_options);
        } else {
            return Err("bad template ID".into());
        }
        Ok(())
    }
}
