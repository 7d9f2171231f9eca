//! `info`, `rows` and `uniq`.

use crate::groups::{Field, Groups};
use crate::ipfix::{Counts, Decoder};
use crate::labels::Labels;
use crate::line::Line;
use crate::row::{Row, TITLE};
use crate::stretches::{Index, NO_LABEL};
use crate::Fault;
use std::fs::File;
use std::io::{Seek, SeekFrom, Write};

/// The labels of addresses under a map of one version.
pub struct Labeller {
    pub labels: Labels,
    pub index: AnyIndex,
}

pub enum AnyIndex {
    V4(Index<u32>),
    V6(Index<u128>),
}

/// The IPv6 address of the IPv4 address 0.0.0.0.
const MAPPED: u128 = 0xffff_0000_0000;

impl Labeller {
    #[inline(always)]
    pub fn number(&self, is_v6: bool, address: u128) -> u32 {
        match &self.index {
            AnyIndex::V4(index) if !is_v6 => index.label(address as u32),
            AnyIndex::V4(index) if address >> 32 == MAPPED >> 32 => index.label(address as u32),
            AnyIndex::V4(_) => NO_LABEL,
            AnyIndex::V6(index) => index.label(if is_v6 { address } else { address | MAPPED }),
        }
    }

    pub fn text(&self, number: u32) -> &[u8] {
        if number == NO_LABEL {
            b""
        } else {
            self.labels.text(number)
        }
    }
}

pub fn info(file: &File, out: &mut impl Write) -> Result<(), Fault> {
    let mut decoder = Decoder::default();
    decoder.read(file, false, |_| {})?;
    let Counts { messages, templates, withdrawals, data_sets, skipped_sets, records, rows } = decoder.counts;
    write!(
        out,
        "messages {messages}\ntemplates {}\noptions-templates {}\nwithdrawals {withdrawals}\ndata-sets {data_sets}\n\
         skipped-sets {skipped_sets}\nrecords {}\noptions-records {}\nrows {rows}\n",
        templates[0], templates[1], records[0], records[1]
    )?;
    Ok(())
}

/// Prints a row with its labels, a bar after each cell, and calls back with the length of each.
#[inline(always)]
fn print_row(row: &Row, labeller: Option<&Labeller>, line: &mut Line, mut cell: impl FnMut(usize, usize)) {
    row.print(line, &mut cell);
    let Some(labeller) = labeller else { return };
    for (column, address) in [(10, row.source), (11, row.destination)] {
        let text = labeller.text(labeller.number(row.is_v6, address));
        line.text(text);
        line.byte(b'|');
        cell(column, text.len());
    }
}

/// Writes the cells of a line, each padded with spaces on the left, separated by bars and with a line feed after the
/// last one.
pub fn fill(cells: &[u8], widths: &[usize], out: &mut Vec<u8>) {
    for (cell, width) in cells.split(|byte| *byte == b'|').zip(widths) {
        out.resize(out.len() + width - cell.len(), b' ');
        out.extend_from_slice(cell);
        out.push(b'|');
    }
    out.pop();
    out.push(b'\n');
}

/// Prints the rows. The File is read twice, since nothing is written before all of it is read and the widths are known.
pub fn rows(mut file: File, labeller: Option<&Labeller>, has_columns: bool, out: &mut impl Write) -> Result<(), Fault> {
    let title = format!("{TITLE}{}|", if labeller.is_some() { "|src-label|dst-label" } else { "" });
    let mut widths: Vec<usize> = title.trim_end_matches('|').split('|').map(str::len).collect();
    let mut line = Line::new();
    Decoder::default().read(&file, has_columns, |row| {
        print_row(row, labeller, &mut line, |column, length| widths[column] = length.max(widths[column]));
        line.clear();
    })?;
    file.seek(SeekFrom::Start(0))?;
    let mut text = Vec::with_capacity(1 << 18);
    let mut written = Ok(());
    line.text(title.as_bytes());
    let mut end_line = |line: &mut Line| {
        if has_columns {
            fill(line.as_bytes(), &widths, &mut text);
            line.clear();
        } else {
            line.end(&mut text);
            text.pop();
            text.push(b'\n');
        }
        if text.len() > (1 << 18) - 4096 && written.is_ok() {
            written = out.write_all(&text);
            text.clear();
        }
    };
    end_line(&mut line);
    Decoder::default().read(&file, true, |row| {
        print_row(row, labeller, &mut line, |_, _| {});
        end_line(&mut line);
    })?;
    written?;
    Ok(out.write_all(&text)?)
}

pub fn uniq(file: &File, fields: &str, labeller: Option<&Labeller>, out: &mut impl Write) -> Result<(), Fault> {
    let named =
        fields.split(',').map(|name| Field::named(name).ok_or("no field of a key")).collect::<Result<Vec<_>, _>>()?;
    let mut groups = Groups::new(named);
    Decoder::default().read(file, true, |row| groups.add(row, labeller))?;
    let mut text = format!("{}|records|packets|bytes\n", fields.replace(',', "|")).into_bytes();
    groups.print(labeller, &mut text);
    Ok(out.write_all(&text)?)
}
