//! What is asked about a pair: two days, two rule numbers and the room of the lists, mostly meaningful, some past the end.
use crate::random::Random;
use crate::records::{Images, Node, Pair, Rule};
use crate::table::names_to;

/// The most entries that a list has: change days of 1,000 versions and the period's first.
const LIST: usize = 2001;

fn day(random: &mut Random, nodes: &[Node]) -> u16 {
    let n = &nodes[random.below(nodes.len())];
    match random.share(&[30, 25, 15, 20, 3, 3, 2, 2]) {
        0 => n.begin,
        1 => n.end,
        2 => n.end.wrapping_sub(1),
        3 => n.begin / 2 + n.end / 2,
        4 => 36524,
        5 => random.pick(&[36525, 36526]),
        6 => 65535,
        _ => random.below(36525) as u16,
    }
}

/// A rule number: mostly of a sequenced rule where there is one, sometimes the number of rules or beyond.
fn number(random: &mut Random, rules: &[Rule]) -> u16 {
    let count = rules.len();
    match random.share(&[92, 5, 2, 1]) {
        0 => {
            let k = random.below(count);
            (if rules[k].mode == 0 || random.chance(40) { k } else { random.below(count) }) as u16
        }
        1 => count as u16,
        2 => 65535,
        _ => random.below(65536) as u16,
    }
}

fn slice_count(nodes: &[Node], day: u16) -> usize {
    nodes.iter().filter(|n| n.kind == 2 && n.begin <= day && day < n.end).count()
}

/// Which versions a rule reads, without those of a referred rule.
fn read_by(nodes: &[Node], rule: &Rule) -> Vec<usize> {
    let fits = |v: usize| {
        let names = names_to(nodes, v);
        names.len() == rule.steps as usize && names.iter().zip(&rule.path).all(|(n, p)| *p == 65535 || n == p)
    };
    let selected: Vec<bool> = (0..nodes.len()).map(|v| nodes[v].kind == 2 && fits(v)).collect();
    let is_field = |f: usize| {
        let holder = |item: &Node| item.name == rule.field && selected.get(item.parent as usize) == Some(&true);
        nodes.get(nodes[f].parent as usize).map_or(false, holder)
    };
    (0..nodes.len()).filter(|v| nodes[*v].kind == 2 && (selected[*v] || is_field(*v))).collect()
}

fn change_count(nodes: &[Node], rules: &[Rule], k: usize) -> usize {
    let mut read = read_by(nodes, &rules[k]);
    if rules[k].kind == 3 {
        read.extend(read_by(nodes, &rules[rules[k].referred as usize]));
    }
    let mut days: Vec<u16> = read.iter().flat_map(|v| vec![nodes[*v].begin, nodes[*v].end]).collect();
    days.retain(|d| rules[k].begin < *d && *d < rules[k].end);
    days.sort();
    days.dedup();
    days.len() + 1
}

/// The room that one of the four lists needs; the pair is sound.
fn needed(random: &mut Random, pair: &Pair, days: [u16; 2], numbers: [u16; 2]) -> usize {
    let k = random.pick(&numbers) as usize;
    if random.chance(60) && k < pair.rules.len() {
        change_count(&pair.nodes, &pair.rules, k)
    } else {
        slice_count(&pair.nodes, random.pick(&days))
    }
}

/// The questions of a sound pair; what comes after may break the pair, the questions stay.
pub fn asked(random: &mut Random, pair: &Pair, exact: usize) -> [u16; 5] {
    let days = [day(random, &pair.nodes), day(random, &pair.nodes)];
    let numbers = [number(random, &pair.rules), number(random, &pair.rules)];
    let room = match random.share(&[100, 10, exact, exact]) {
        0 => [LIST, LIST + 1, 65535][days[0] as usize % 3],
        1 => random.below(12),
        2 => needed(random, pair, days, numbers),
        _ => needed(random, pair, days, numbers).saturating_sub(1),
    };
    [days[0], days[1], numbers[0], numbers[1], room as u16]
}

/// The header of a pair in the file.
pub fn header(images: &Images, asked: &[u16; 5]) -> Vec<u8> {
    let mut out = Vec::new();
    out.extend((images.nodes.len() as u32).to_le_bytes());
    out.extend((images.rules.len() as u32).to_le_bytes());
    for x in asked {
        out.extend(x.to_le_bytes());
    }
    out.extend([0, 0]);
    out
}
