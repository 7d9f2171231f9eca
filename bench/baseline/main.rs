//! The yardstick of the bench: commands of flowlabel in plain, straightforward Rust, without a proof, for speed. It
//! takes the program's words and prints what the program prints, for inputs of the bench: without declared labels,
//! elements of enterprises and faults. With `read FILE` it reads each byte of a file once and prints their exclusive
//! or.
mod address;
mod certificate;
mod checking;
mod compacting;
mod groups;
mod ipfix;
mod labels;
mod line;
mod map;
mod reports;
mod row;
mod shrinking;
mod stretches;
mod tree;

use address::Address;
use certificate::Certificate;
use line::Line;
use map::{is_ipv6, Map};
use reports::{AnyIndex, Labeller};
use std::fs::{self, File};
use std::io::{self, Write};
use stretches::{Index, Stretches, NO_LABEL};
use tree::Tree;

type Fault = Box<dyn std::error::Error>;

/// The words of a command line.
#[derive(Default)]
struct Words {
    command: String,
    map: Option<String>,
    list: Option<String>,
    certificate: Option<String>,
    fields: Option<String>,
    wants_certificate: bool,
    is_compact: bool,
    has_columns: bool,
    /// An address or a File.
    last: String,
}

impl Words {
    fn read(mut words: impl Iterator<Item = String>) -> Words {
        let mut read = Words { command: words.next().unwrap_or_default(), ..Words::default() };
        while let Some(word) = words.next() {
            match word.as_str() {
                "--pmap" => read.map = words.next(),
                "--list" => read.list = words.next(),
                "--cert" => read.certificate = words.next(),
                "--fields" => read.fields = words.next(),
                "--certificate" => read.wants_certificate = true,
                "--compact" => read.is_compact = true,
                "--columns" => read.has_columns = true,
                _ => read.last = word,
            }
        }
        read
    }
}

/// Returns the bytes of a file that must be named.
fn bytes(name: &Option<String>) -> Result<Vec<u8>, Fault> {
    Ok(fs::read(name.as_ref().ok_or("a file is missing")?)?)
}

/// Returns the text of the label of an address under a map, which is searched for while the map is read.
fn label<A: Address>(text: &[u8], address: &str) -> Result<Vec<u8>, Fault> {
    let (address, _) = A::read(address.as_bytes()).ok_or("no address of the map's version")?;
    let mut found = None;
    let map = Map::read(text, |_, statement| {
        if statement.first <= address && address <= statement.last {
            found = Some(statement.label);
        }
    })?;
    let label = found.or(map.default).map_or(&b"UNKNOWN"[..], |number| map.labels.text(number));
    Ok([label, b"\n"].concat())
}

fn cat<A: Address>(map: Map<A>) -> Vec<u8> {
    let stretches = Stretches::new(&map.statements, map.default.unwrap_or(NO_LABEL), true);
    let mut out = Vec::with_capacity(stretches.starts.len() * 24);
    out.extend_from_slice(b"low|high|label\n");
    let mut line = Line::new();
    for (number, (start, label)) in stretches.starts.iter().zip(&stretches.labels).enumerate() {
        start.print(&mut line);
        line.byte(b'|');
        stretches.last(number).print(&mut line);
        line.byte(b'|');
        if *label != NO_LABEL {
            line.text(map.labels.text(*label));
        }
        line.byte(b'\n');
        line.end(&mut out);
    }
    out
}

fn shrink<A: Address>(map: Map<A>, words: &Words) -> Vec<u8> {
    let stretches = Stretches::new(&map.statements, map.default.unwrap_or(NO_LABEL), !words.wants_certificate);
    drop(map.statements);
    let tree = Tree::new(&stretches);
    drop(stretches);
    if words.wants_certificate {
        shrinking::certificate(&tree, &map.labels, words.is_compact)
    } else {
        shrinking::list(&tree, &map.labels, map.name.as_deref())
    }
}

/// Returns the output of a command over maps of one version.
fn of_map<A: Address>(text: Vec<u8>, words: &Words) -> Result<Vec<u8>, Fault> {
    if words.command == "label" {
        return label::<A>(&text, &words.last);
    }
    let map = Map::<A>::read_map(&text)?;
    drop(text);
    match words.command.as_str() {
        "cat" => Ok(cat(map)),
        "shrink" => Ok(shrink(map, words)),
        "check" => {
            let list = Map::read_list(&bytes(&words.list)?)?;
            let text = bytes(&words.certificate)?;
            let count = checking::check(map, list, Certificate::read(&text)?)?;
            Ok(format!("minimal {count}\n").into_bytes())
        }
        _ => Err("no such command".into()),
    }
}

fn index<A: Address>(map: Map<A>) -> (labels::Labels, Index<A>) {
    let stretches = Stretches::new(&map.statements, map.default.unwrap_or(NO_LABEL), true);
    (map.labels, Index::new(stretches))
}

/// Returns the labels of the map or the list that the words name, if they name one.
fn labeller(words: &Words) -> Result<Option<Labeller>, Fault> {
    let (text, is_list) = match (&words.map, &words.list) {
        (None, None) => return Ok(None),
        (Some(_), _) => (bytes(&words.map)?, false),
        (None, Some(_)) => (bytes(&words.list)?, true),
    };
    if is_ipv6(&text) {
        let (labels, found) = index(if is_list { Map::read_list(&text)? } else { Map::read_map(&text)? });
        return Ok(Some(Labeller { labels, index: AnyIndex::V6(found) }));
    }
    let (labels, found) = index(if is_list { Map::read_list(&text)? } else { Map::read_map(&text)? });
    Ok(Some(Labeller { labels, index: AnyIndex::V4(found) }))
}

fn main() -> Result<(), Fault> {
    let words = Words::read(std::env::args().skip(1));
    let mut out = io::stdout().lock();
    match words.command.as_str() {
        "read" => writeln!(out, "{}", fs::read(&words.last)?.iter().fold(0, |all, byte| all ^ byte))?,
        "info" => reports::info(&File::open(&words.last)?, &mut out)?,
        "rows" => reports::rows(File::open(&words.last)?, labeller(&words)?.as_ref(), words.has_columns, &mut out)?,
        "uniq" => {
            let fields = words.fields.as_ref().ok_or("--fields is missing")?;
            reports::uniq(&File::open(&words.last)?, fields, labeller(&words)?.as_ref(), &mut out)?;
        }
        "recert" => {
            let text = bytes(&words.certificate)?;
            out.write_all(&compacting::compact(Certificate::read(&text)?)?)?;
        }
        _ => {
            let text = bytes(&words.map)?;
            out.write_all(&if is_ipv6(&text) { of_map::<u128>(text, &words) } else { of_map::<u32>(text, &words) }?)?;
        }
    }
    Ok(())
}
