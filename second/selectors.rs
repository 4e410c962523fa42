//! Selectors typed by people, by the words of request 6 of document 02, and the file of many cases of them.
use crate::images::{u32_at, Refusal};
use crate::pairs::taken;
use std::collections::{HashMap, HashSet};
use std::fs::File;
use std::io::{self, BufReader, BufWriter, Read, Write};

/// The most steps of a path, and the number of a star.
const STEPS: usize = 8;
const STAR: u16 = 65535;

/// A path as a rule record has it: eight numbers, 0 past its length.
type Path = ([u16; STEPS], usize);

fn is_name(step: &[u8]) -> bool {
    let first = |b: u8| b.is_ascii_alphabetic() || b == b'_';
    let later = |b: u8| first(b) || b.is_ascii_digit() || b == b'-';
    step.first().map_or(false, |b| first(*b)) && step.iter().all(|b| later(*b))
}

fn is_step(step: &[u8]) -> bool {
    step == b"*" || is_name(step)
}

/// The bytes between slashes: one part more than there are slashes.
fn parts(text: &[u8]) -> Vec<&[u8]> {
    text.split(|b| *b == b'/').collect()
}

/// Whether the text is in the profile.
fn in_profile(text: &[u8]) -> bool {
    let steps = parts(text);
    steps.len() <= STEPS && steps.iter().all(|step| is_step(step))
}

/// Whether some text of the profile begins with these bytes: all steps but the last are whole, and the last is one too or has not begun.
fn begins_some(front: &[u8]) -> bool {
    let steps = parts(front);
    let (last, whole) = steps.split_last().unwrap();
    steps.len() <= STEPS && whole.iter().all(|step| is_step(step)) && (last.is_empty() || is_step(last))
}

/// Why a text is not in the profile: the first byte such that no text beginning with the bytes up to and including it is in it, or its length.
fn outside(text: &[u8]) -> Option<usize> {
    if in_profile(text) {
        return None;
    }
    let bad = (0..text.len()).find(|k| !begins_some(&text[..k + 1]));
    Some(bad.unwrap_or(text.len()))
}

/// A number 1 to 65,534 from its digits: those that it is written with, and no others.
fn number(digits: &[u8]) -> Option<u16> {
    let digits = std::str::from_utf8(digits).ok()?;
    let number = digits.parse::<u16>().ok()?;
    if number == 0 || number == STAR || number.to_string() != digits { None } else { Some(number) }
}

/// Name and number of a line of a dictionary, its line feed included; none if it is of another form.
fn entry(line: &[u8]) -> Option<(&[u8], u16)> {
    let line = line.strip_suffix(b"\n")?;
    let space = line.iter().position(|b| *b == b' ')?;
    let (name, digits) = (&line[..space], &line[space + 1..]);
    if is_name(name) { Some((name, number(digits)?)) } else { None }
}

/// The lines of a dictionary as names and numbers, or the first that is of another form or has the name of an earlier one.
fn entries(dictionary: &[u8]) -> Result<Vec<(&[u8], u16)>, usize> {
    let mut names = HashSet::new();
    let mut found = Vec::new();
    for (k, line) in dictionary.split_inclusive(|b| *b == b'\n').enumerate() {
        let (name, number) = entry(line).ok_or(k)?;
        if !names.insert(name) {
            return Err(k);
        }
        found.push((name, number));
    }
    Ok(found)
}

/// The path of a text. 27 for a text outside the profile; 31 for a dictionary that breaks its form; 28 for a name that it does not have.
fn select(text: &[u8], dictionary: &[u8]) -> Result<Path, Refusal> {
    if let Some(place) = outside(text) {
        return Err((27, place));
    }
    let numbers: HashMap<&[u8], u16> = entries(dictionary).map_err(|line| (31, line))?.into_iter().collect();
    let (mut path, mut start) = ([0; STEPS], 0);
    let steps = parts(text);
    for (k, step) in steps.iter().enumerate() {
        path[k] = if *step == b"*" { STAR } else { *numbers.get(step).ok_or((28, start))? };
        start += step.len() + 1;
    }
    Ok((path, steps.len()))
}

/// The line on a text and a dictionary.
fn answer(text: &[u8], dictionary: &[u8]) -> String {
    match select(text, dictionary) {
        Ok((path, length)) => format!("path {} length {}", path.map(|n| n.to_string()).join(" "), length),
        Err((refusal, place)) => format!("refused {} {}", refusal, place),
    }
}

/// Text and dictionary of the next case; none if the file ends before.
fn next_case(file: &mut dyn Read) -> Option<(Vec<u8>, Vec<u8>)> {
    let header = taken(file, 8)?;
    let text = taken(file, u32_at(&header, 0) as usize)?;
    let dictionary = taken(file, u32_at(&header, 4) as usize)?;
    Some((text, dictionary))
}

/// Prints the answer for each case of the file, until it ends.
pub fn over_cases(path: &str) -> io::Result<()> {
    let mut file = BufReader::new(File::open(path)?);
    let mut out = BufWriter::new(io::stdout());
    let mut number = 0;
    while let Some((text, dictionary)) = next_case(&mut file) {
        write!(out, "case {}\n{}\n", number, answer(&text, &dictionary))?;
        number += 1;
    }
    out.flush()
}
