//! Answers: the verdict on a rule, the lists asked for, and the lines in which they are printed.
use crate::days::offender_on;
use crate::images::Refusal;
use crate::nodes::{read_nodes, Bank};
use crate::rules::{read_rules, Rule};
use crate::slices::{change_days, rows_read, slice};
use crate::windows::{offender_in, windows};

/// What was read of a pair of images, the month starts with it.
pub struct Reading<'a> {
    nodes: Result<Bank, Refusal>,
    rules: Result<Vec<Rule>, Refusal>,
    months: &'a [usize],
}

pub enum Verdict {
    Holds(usize),
    Fails(usize, usize, usize),
}

fn on_days(bank: &Bank, rules: &[Rule], rule: &Rule) -> Verdict {
    let (rows, referred) = rows_read(bank, rules, rule);
    let days = change_days(bank, rules, rule);
    for day in rule.begin..rule.end {
        if let Some(v) = offender_on(bank, rule, &rows, &referred, day) {
            return Verdict::Fails(day, v, days.iter().position(|d| *d == day).map_or(0, |i| i + 1));
        }
    }
    Verdict::Holds(days.len())
}

fn in_windows(bank: &Bank, rules: &[Rule], rule: &Rule, months: &[usize]) -> Verdict {
    let (rows, referred) = rows_read(bank, rules, rule);
    let all = windows(rule, months);
    for (i, window) in all.iter().enumerate() {
        if let Some(v) = offender_in(bank, rule, &rows, &referred, window) {
            return Verdict::Fails(window.from, v, i + 1);
        }
    }
    Verdict::Holds(all.len())
}

/// The words of a verdict, as a report has them after the rule's number.
fn words(verdict: &Verdict) -> String {
    match verdict {
        Verdict::Holds(n) => format!("holds - - {}", n),
        Verdict::Fails(day, record, n) => format!("fails {} {} {}", day, record, n),
    }
}

/// A line with a count and as many numbers, or with a refusal.
pub fn numbers(kind: &str, asked: usize, list: Result<Vec<usize>, Refusal>) -> String {
    match list {
        Ok(list) => {
            let mut line = format!("{} {} {}", kind, asked, list.len());
            for x in list {
                line += &format!(" {}", x);
            }
            line + "\n"
        }
        Err((number, place)) => format!("{} {} refused {} {}\n", kind, asked, number, place),
    }
}

impl<'a> Reading<'a> {
    pub fn new(nodes: &[u8], rules: &[u8], months: &'a [usize]) -> Reading<'a> {
        Reading { nodes: read_nodes(nodes), rules: read_rules(rules, months), months }
    }

    /// Nodes and rules, or the refusal: that of the nodes ahead of that of the rules.
    fn both(&self) -> Result<(&Bank, &[Rule]), Refusal> {
        let bank = self.nodes.as_ref().map_err(|e| *e)?;
        let rules = self.rules.as_ref().map_err(|e| *e)?;
        Ok((bank, rules))
    }

    /// The words of the verdict on each rule, or the refusal of the images.
    pub fn verdicts(&self) -> Result<Vec<String>, Refusal> {
        let (bank, rules) = self.both()?;
        let judge = |rule: &Rule| if rule.windowed { in_windows(bank, rules, rule, self.months) } else { on_days(bank, rules, rule) };
        Ok(rules.iter().map(|rule| words(&judge(rule))).collect())
    }

    /// The slice of a day; the rules have no part in it.
    pub fn slice_asked(&self, day: usize) -> Result<Vec<usize>, Refusal> {
        let bank = self.nodes.as_ref().map_err(|e| *e)?;
        if day > 36524 {
            return Err((11, 0));
        }
        Ok(slice(bank, day))
    }

    /// The change days of rule k.
    pub fn changes_asked(&self, k: usize) -> Result<Vec<usize>, Refusal> {
        let (bank, rules) = self.both()?;
        if k >= rules.len() || rules[k].windowed {
            return Err((11, 0));
        }
        Ok(change_days(bank, rules, &rules[k]))
    }
}

/// The report: a header and a line for each rule, or the one line of a refusal.
pub fn report(verdicts: &Result<Vec<String>, Refusal>) -> String {
    match verdicts {
        Err((number, place)) => format!("refused {} {}\n", number, place),
        Ok(all) => {
            let mut out = String::from("rule verdict day record looked\n");
            for (k, words) in all.iter().enumerate() {
                out += &format!("{} {}\n", k, words);
            }
            out
        }
    }
}
