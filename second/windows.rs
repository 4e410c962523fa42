//! The windows of a non-sequenced rule, and its meaning in one window: which record is its lowest offender there.
use crate::months::LAST;
use crate::nodes::{Bank, Value};
use crate::rules::Rule;
use crate::slices::Row;

/// First day and day after the last of a window, and whether it would end later by its length alone.
pub struct Window {
    pub from: usize,
    pub to: usize,
    pub shortened: bool,
}

/// A window that starts on a day and has its natural end on another, cut where the period or the month table ends.
fn cut(rule: &Rule, months: &[usize], from: usize, natural: usize) -> Window {
    let to = natural.min(rule.end).min(months[LAST]);
    Window { from, to, shortened: to < natural }
}

/// The windows in their order.
pub fn windows(rule: &Rule, months: &[usize]) -> Vec<Window> {
    let mut all = Vec::new();
    match rule.unit {
        0 => all.push(cut(rule, months, rule.begin, rule.end)),
        1 => {
            let mut start = rule.begin;
            while start < rule.end {
                all.push(cut(rule, months, start, start + rule.length));
                start += rule.slide;
            }
        }
        _ => {
            let mut k = months.iter().position(|d| *d == rule.begin).unwrap();
            while months[k] < rule.end {
                all.push(cut(rule, months, months[k], months[k + rule.length]));
                k += rule.slide;
            }
        }
    }
    all
}

/// A selected version that meets the window: its item number, its field versions that meet it too, and their values.
struct Met {
    version: usize,
    item: u32,
    fields: Vec<usize>,
    values: Vec<Value>,
}

fn met(bank: &Bank, rows: &[Row], window: &Window) -> Vec<Met> {
    let meets = |v: usize| (bank.nodes[v].begin as usize) < window.to && window.from < bank.nodes[v].end as usize;
    let mut all = Vec::new();
    for row in rows.iter().filter(|row| meets(row.version)) {
        let fields: Vec<usize> = row.fields.iter().copied().filter(|f| meets(*f)).collect();
        let values = fields.iter().filter_map(|f| bank.value(*f)).collect();
        all.push(Met { version: row.version, item: bank.item_number(row.version), fields, values });
    }
    all
}

/// Key: no value, a nil, or a value shared with a lower version of another item number; unique: the last only.
fn key_offends(rule: &Rule, rows: &[Met], k: usize) -> bool {
    let row = &rows[k];
    let shares = |lower: &Met| lower.item != row.item && lower.values.iter().any(|x| row.values.contains(x));
    (rule.kind == 1 && (row.values.is_empty() || row.values.iter().any(Value::is_nil))) || rows[..k].iter().any(shares)
}

/// Reference: a value that no selected version of the referred rule has in this window; so any nil, since it equals no value.
fn reference_offends(referred: &[Met], row: &Met) -> bool {
    row.values.iter().any(|x| !referred.iter().any(|other| other.values.contains(x)))
}

/// Cardinality: the values (or the distinct ones, which leave out nils) under the row's item number are too few or too many; in a
/// shortened window never too few, since days on which more could have come are cut off.
fn cardinality_offends(rule: &Rule, rows: &[Met], row: &Met, shortened: bool) -> bool {
    let mut values: Vec<Value> = Vec::new();
    for other in rows.iter().filter(|other| other.item == row.item) {
        for x in &other.values {
            if !(rule.distinct && (x.is_nil() || values.contains(x))) {
                values.push(*x);
            }
        }
    }
    let count = values.len() as i64;
    (count < rule.min && !shortened) || rule.max < count
}

/// p and q have numbers, p ends by q's begin, nothing of the group lies between, and the step leaves the bounds.
fn steps_wrongly(bank: &Bank, rule: &Rule, group: &[usize], p: usize, q: usize) -> bool {
    let nodes = &bank.nodes;
    if nodes[p].vkind != 1 || nodes[p].end > nodes[q].begin {
        return false;
    }
    if group.iter().any(|h| nodes[p].end <= nodes[*h].begin && nodes[*h].end <= nodes[q].begin) {
        return false;
    }
    let step = nodes[q].value as i64 - nodes[p].value as i64;
    step < rule.min || rule.max < step
}

/// Datatype: the field versions of a row that are no number or that follow another one wrongly. A nil is passed over: it is not at fault
/// itself, nothing follows it, and it does not lie between two others.
fn wrong_fields(bank: &Bank, rule: &Rule, rows: &[Met], row: &Met) -> Vec<usize> {
    let looked_at = |f: &usize| bank.value(*f).map_or(false, |value| !value.is_nil());
    let same = rows.iter().filter(|other| other.item == row.item);
    let group: Vec<usize> = same.flat_map(|other| other.fields.iter().copied()).filter(looked_at).collect();
    let wrong = |q: &usize| bank.nodes[*q].vkind != 1 || group.iter().any(|p| steps_wrongly(bank, rule, &group, *p, *q));
    row.fields.iter().copied().filter(looked_at).filter(wrong).collect()
}

/// The lowest offender in the window; the rows of the rule and of the rule it refers to are given.
pub fn offender_in(bank: &Bank, rule: &Rule, rows: &[Row], referred: &[Row], window: &Window) -> Option<usize> {
    let rows = met(bank, rows, window);
    let referred = met(bank, referred, window);
    if rule.kind == 5 {
        return rows.iter().flat_map(|row| wrong_fields(bank, rule, &rows, row)).min();
    }
    let offends = |k: &usize| match rule.kind {
        1 | 2 => key_offends(rule, &rows, *k),
        3 => reference_offends(&referred, &rows[*k]),
        _ => cardinality_offends(rule, &rows, &rows[*k], window.shortened),
    };
    (0..rows.len()).find(offends).map(|k| rows[k].version)
}
