//! Rules: the records of a rule image, and the refusals 24 to 26 that they can meet.
use crate::images::{i32_at, records, u16_at, Refusal, RULES};
use crate::nodes::is_period;

pub struct Rule {
    pub kind: u8,
    pub windowed: bool,
    pub path: Vec<u16>,
    pub distinct: bool,
    pub field: u16,
    pub referred: u16,
    pub min: i64,
    pub max: i64,
    pub begin: usize,
    pub end: usize,
    pub length: usize,
    pub unit: u8,
    pub slide: usize,
}

/// The path length is 1 to 8; the used places hold names, the others 0.
fn path_fits(s: &[u8]) -> bool {
    let steps = s[18] as usize;
    (1..=8).contains(&steps) && (0..8).all(|k| (k < steps) == (u16_at(s, 2 + 2 * k) >= 1))
}

/// Byte 19, field, referred rule and bounds are as the kind and the mode allow.
fn kind_fits(s: &[u8]) -> bool {
    let (kind, mode, distinct) = (s[0], s[1], s[19]);
    let (field, referred) = (u16_at(s, 20), u16_at(s, 22));
    let (min, max) = (i32_at(s, 24), i32_at(s, 28));
    if !(1..=5).contains(&kind) || mode > 1 {
        return false;
    }
    if !(distinct == 0 || (distinct == 1 && mode == 1 && kind == 4)) {
        return false;
    }
    if field > 65534 || (kind == 4 && field == 0) || (kind != 3 && referred != 65535) {
        return false;
    }
    min <= max && (kind > 3 || (min == 0 && max == 0)) && (kind != 4 || min >= 0)
}

/// The period is one, and the window is as the mode and the unit allow.
fn window_fits(s: &[u8], months: &[usize]) -> bool {
    let (mode, unit) = (s[1], s[38]);
    let (begin, end, length, slide) = (u16_at(s, 32), u16_at(s, 34), u16_at(s, 36), u16_at(s, 40));
    is_period(begin, end)
        && match unit {
            0 => length == 0 && slide == 0,
            1 => mode == 1 && (1..=36525).contains(&length) && (1..=36525).contains(&slide),
            2 => mode == 1 && (1..=1200).contains(&length) && (1..=1200).contains(&slide) && months.contains(&(begin as usize)),
            _ => false,
        }
}

fn rule(s: &[u8]) -> Rule {
    Rule {
        kind: s[0],
        windowed: s[1] == 1,
        path: (0..s[18] as usize).map(|k| u16_at(s, 2 + 2 * k)).collect(),
        distinct: s[19] == 1,
        field: u16_at(s, 20),
        referred: u16_at(s, 22),
        min: i32_at(s, 24) as i64,
        max: i32_at(s, 28) as i64,
        begin: u16_at(s, 32) as usize,
        end: u16_at(s, 34) as usize,
        length: u16_at(s, 36) as usize,
        unit: s[38],
        slide: u16_at(s, 40) as usize,
    }
}

/// A reference names a rule of the table that is a key or unique rule.
fn reference_fits(rules: &[Rule], r: &Rule) -> bool {
    let to = r.referred as usize;
    r.kind != 3 || (to < rules.len() && (rules[to].kind == 1 || rules[to].kind == 2))
}

/// The rules of a rule image, or the first refusal of 21 to 26.
pub fn read_rules(image: &[u8], months: &[usize]) -> Result<Vec<Rule>, Refusal> {
    let mut rules = Vec::new();
    for (k, s) in records(image, &RULES)?.into_iter().enumerate() {
        if s[39] != 0 || s[42..50].iter().any(|x| *x != 0) {
            return Err((24, k));
        }
        if !(path_fits(s) && kind_fits(s) && window_fits(s, months)) {
            return Err((25, k));
        }
        rules.push(rule(s));
    }
    match rules.iter().position(|r| !reference_fits(&rules, r)) {
        Some(k) => Err((26, k)),
        None => Ok(rules),
    }
}
