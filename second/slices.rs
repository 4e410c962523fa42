//! Slices of days, the versions that a rule selects and reads, and the change days of a sequenced rule.
use crate::nodes::Bank;
use crate::rules::Rule;

/// From an item on: its versions present on the day, and from each of them its items.
fn visit(bank: &Bank, item: usize, day: usize, reached: &mut [bool]) {
    for v in &bank.under[item] {
        if bank.nodes[*v].begin as usize <= day && day < bank.nodes[*v].end as usize {
            reached[*v] = true;
            for i in &bank.under[*v] {
                visit(bank, *i, day, reached);
            }
        }
    }
}

/// For each record whether it is a version reached from the root on the day.
pub fn reached(bank: &Bank, day: usize) -> Vec<bool> {
    let mut reached = vec![false; bank.nodes.len()];
    visit(bank, 0, day, &mut reached);
    reached
}

/// The versions reached on the day, ascending.
pub fn slice(bank: &Bank, day: usize) -> Vec<usize> {
    let reached = reached(bank, day);
    (0..reached.len()).filter(|v| reached[*v]).collect()
}

/// The names of the items from the root to the item of version v.
fn names_to(bank: &Bank, v: usize) -> Vec<u16> {
    let mut names = Vec::new();
    let mut item = bank.nodes[v].parent as usize;
    loop {
        names.push(bank.nodes[item].name);
        if item == 0 {
            names.reverse();
            return names;
        }
        item = bank.nodes[bank.nodes[item].parent as usize].parent as usize;
    }
}

fn fits(names: &[u16], path: &[u16]) -> bool {
    names.len() == path.len() && names.iter().zip(path).all(|(n, p)| *p == 65535 || n == p)
}

fn field_versions(bank: &Bank, rule: &Rule, v: usize) -> Vec<usize> {
    if rule.field == 0 {
        return vec![v];
    }
    let items = bank.under[v].iter().filter(|i| bank.nodes[**i].name == rule.field);
    items.flat_map(|i| bank.under[*i].iter().copied()).collect()
}

/// A selected version and its field versions, on whatever day.
pub struct Row {
    pub version: usize,
    pub fields: Vec<usize>,
}

/// The rows of a rule, by ascending version.
pub fn rows(bank: &Bank, rule: &Rule) -> Vec<Row> {
    (0..bank.nodes.len())
        .filter(|v| bank.nodes[*v].kind == 2 && fits(&names_to(bank, *v), &rule.path))
        .map(|v| Row { version: v, fields: field_versions(bank, rule, v) })
        .collect()
}

/// The rows of a rule, and for a reference the rows of the rule that it refers to.
pub fn rows_read(bank: &Bank, rules: &[Rule], rule: &Rule) -> (Vec<Row>, Vec<Row>) {
    let referred = if rule.kind == 3 { rows(bank, &rules[rule.referred as usize]) } else { Vec::new() };
    (rows(bank, rule), referred)
}

/// The period's first day, and each day of it on which a version that the rule reads begins or ends.
pub fn change_days(bank: &Bank, rules: &[Rule], rule: &Rule) -> Vec<usize> {
    let (own, referred) = rows_read(bank, rules, rule);
    let mut changes = vec![false; 36526];
    for row in own.iter().chain(&referred) {
        for v in row.fields.iter().chain(&[row.version]) {
            changes[bank.nodes[*v].begin as usize] = true;
            changes[bank.nodes[*v].end as usize] = true;
        }
    }
    (rule.begin..rule.end).filter(|d| *d == rule.begin || changes[*d]).collect()
}
