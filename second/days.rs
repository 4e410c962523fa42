//! The meaning of a rule on one day: which selected version is its lowest offender there.
use crate::nodes::{Bank, Value};
use crate::rules::Rule;
use crate::slices::{reached, Row};

/// A selected version present on the day: how many field versions it has there, and their values.
struct Present {
    version: usize,
    count: i64,
    values: Vec<Value>,
}

fn present(bank: &Bank, rows: &[Row], here: &[bool]) -> Vec<Present> {
    let mut all = Vec::new();
    for row in rows.iter().filter(|row| here[row.version]) {
        let fields = || row.fields.iter().filter(|f| here[**f]);
        all.push(Present { version: row.version, count: fields().count() as i64, values: fields().filter_map(|f| bank.value(*f)).collect() });
    }
    all
}

/// The one value, where there is exactly one.
fn only(p: &Present) -> Option<Value> {
    if p.values.len() == 1 { Some(p.values[0]) } else { None }
}

fn held_by(rows: &[Present], value: Option<Value>) -> bool {
    value.is_some() && rows.iter().any(|other| only(other) == value)
}

/// Whether a value breaks a datatype rule: a text does, a number outside the bounds does, a nil is passed over.
fn wrong_type(rule: &Rule, value: &Value) -> bool {
    match value {
        Value::Number(x) => (*x as i64) < rule.min || rule.max < *x as i64,
        Value::Text(_) => true,
        Value::Nil => false,
    }
}

/// Whether row k offends, given the selected versions present and those of the referred rule.
fn offends(rule: &Rule, rows: &[Present], referred: &[Present], k: usize) -> bool {
    let row = &rows[k];
    match rule.kind {
        1 => row.values.len() != 1 || row.values[0].is_nil() || held_by(&rows[..k], only(row)),
        2 => row.values.len() > 1 || held_by(&rows[..k], only(row)),
        3 => row.values.len() > 1 || (row.values.len() == 1 && !held_by(referred, only(row))),
        4 => row.count < rule.min || rule.max < row.count,
        _ => row.values.iter().any(|value| wrong_type(rule, value)),
    }
}

/// The lowest offender on the day; the rows of the rule and of the rule it refers to are given.
pub fn offender_on(bank: &Bank, rule: &Rule, rows: &[Row], referred: &[Row], day: usize) -> Option<usize> {
    let here = reached(bank, day);
    let rows = present(bank, rows, &here);
    let referred = present(bank, referred, &here);
    (0..rows.len()).find(|k| offends(rule, &rows, &referred, *k)).map(|k| rows[k].version)
}
