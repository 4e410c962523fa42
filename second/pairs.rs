//! The file of many pairs: each pair is read by itself, and its report, slices, change days and verdicts are printed, and whether its node
//! image comes back when it is written again.
use crate::images::{u16_at, u32_at, Refusal};
use crate::nodes::read_nodes;
use crate::report::{numbers, report, Reading};
use crate::writing::{write_nodes, Lent, FRESH};
use std::fs::File;
use std::io::{self, BufReader, BufWriter, Read, Write};

/// The most bytes that an image of a pair has: one more than the largest good one.
const NODES_MOST: u32 = 20481;
const RULES_MOST: u32 = 5121;

/// The next so many bytes, or none if the file ends before.
pub fn taken(file: &mut dyn Read, length: usize) -> Option<Vec<u8>> {
    let mut bytes = Vec::new();
    file.take(length as u64).read_to_end(&mut bytes).ok()?;
    if bytes.len() == length { Some(bytes) } else { None }
}

/// Header, node image and rule image of the next pair; none if the file ends before, or a length is more than an image has.
fn next_pair(file: &mut dyn Read) -> Option<(Vec<u8>, Vec<u8>, Vec<u8>)> {
    let header = taken(file, 20)?;
    let (nodes, rules) = (u32_at(&header, 0), u32_at(&header, 4));
    if nodes > NODES_MOST || rules > RULES_MOST {
        return None;
    }
    let nodes = taken(file, nodes as usize)?;
    let rules = taken(file, rules as usize)?;
    Some((header, nodes, rules))
}

/// A list that needs more than the room is refused, after every other refusal.
fn lent(list: Result<Vec<usize>, Refusal>, room: usize) -> Result<Vec<usize>, Refusal> {
    match list {
        Ok(list) if list.len() > room => Err((12, 0)),
        other => other,
    }
}

fn verdict_line(verdicts: &Result<Vec<String>, Refusal>, k: usize) -> String {
    match verdicts {
        Err((number, place)) => format!("verdict {} refused {} {}\n", k, number, place),
        Ok(all) if k >= all.len() => format!("verdict {} refused 11 0\n", k),
        Ok(all) => format!("verdict {} {}\n", k, all[k]),
    }
}

/// The records of the node image written to a lent image of its length: the bytes of that after it, or a refusal.
fn written_again(nodes: &[u8]) -> Result<(usize, Vec<u8>), Refusal> {
    let bank = read_nodes(nodes)?;
    let mut image = vec![FRESH; nodes.len()];
    let size = write_nodes(bank.nodes.len(), &Lent::of(&bank.nodes), &mut image)?;
    Ok((size, image))
}

fn again_line(nodes: &[u8]) -> String {
    match written_again(nodes) {
        Err((number, place)) => format!("again refused {} {}\n", number, place),
        Ok((size, image)) if size == nodes.len() && image == nodes => String::from("again same\n"),
        Ok(_) => String::from("again differs\n"),
    }
}

fn answers(header: &[u8], nodes: &[u8], rules: &[u8], months: &[usize]) -> String {
    let room = u16_at(header, 16) as usize;
    let reading = Reading::new(nodes, rules, months);
    let verdicts = reading.verdicts();
    let mut out = report(&verdicts);
    for at in [8, 10] {
        let day = u16_at(header, at) as usize;
        out += &numbers("slice", day, lent(reading.slice_asked(day), room));
    }
    for at in [12, 14] {
        let k = u16_at(header, at) as usize;
        out += &numbers("changes", k, lent(reading.changes_asked(k), room));
    }
    for at in [12, 14] {
        out += &verdict_line(&verdicts, u16_at(header, at) as usize);
    }
    out + &again_line(nodes)
}

/// Prints the answers for each pair of the file, until it ends.
pub fn over_pairs(path: &str, months: &[usize]) -> io::Result<()> {
    let mut file = BufReader::new(File::open(path)?);
    let mut out = BufWriter::new(io::stdout());
    let mut number = 0;
    while let Some((header, nodes, rules)) = next_pair(&mut file) {
        write!(out, "pair {}\n{}", number, answers(&header, &nodes, &rules, months))?;
        number += 1;
    }
    out.flush()
}
