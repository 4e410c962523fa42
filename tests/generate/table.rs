//! Sound rules over a bank: paths and fields that fit it, bounds near its values, periods about its days, windows of all sizes,
//! and cardinalities in windows that the period's end cuts.
use crate::bank::Plan;
use crate::random::Random;
use crate::records::{Node, Rule};

/// How much work a rule may make for a checker that looks at each day: days of a period, windows, and how often more.
pub struct Cost {
    pub days: usize,
    pub windows: usize,
    pub over: usize,
}

/// Entry k is the first day of month k of the century.
pub fn month_starts() -> Vec<usize> {
    let mut starts = vec![0];
    for month in 0..1200usize {
        let leap = (month / 12) % 4 == 0;
        let length = match month % 12 {
            1 => 28 + leap as usize,
            3 | 5 | 8 | 10 => 30,
            _ => 31,
        };
        starts.push(starts[month] + length);
    }
    starts
}

/// The names of the items from the root to the item of version v; none where the way does not lead to the root.
pub fn names_to(nodes: &[Node], v: usize) -> Vec<u16> {
    let parent = |i: usize| nodes.get(i).map_or(65535, |n| n.parent as usize);
    let mut names = vec![];
    let mut item = parent(v);
    while item < nodes.len() && names.len() < nodes.len() {
        names.insert(0, nodes[item].name);
        if item == 0 {
            return names;
        }
        item = parent(parent(item));
    }
    vec![]
}

/// So many sound rules; a reference finds a key or unique rule among them.
pub fn rules(random: &mut Random, nodes: &[Node], plan: &Plan, count: usize, cost: &Cost) -> Vec<Rule> {
    let months = month_starts();
    let mut kinds: Vec<u8> = (0..count).map(|_| random.between(1, 5) as u8).collect();
    if kinds.contains(&3) && !kinds.iter().any(|k| *k <= 2) {
        let at = kinds.iter().position(|k| *k == 3).unwrap();
        kinds[at] = random.between(1, 2) as u8;
    }
    let mut all: Vec<Rule> = Vec::new();
    for kind in &kinds {
        let mut rule = Rule { kind: *kind, mode: random.below(2) as u8, referred: 65535, ..Rule::default() };
        aim(random, nodes, &mut rule);
        bound(random, nodes, &mut rule);
        let (begin, end) = period(random, nodes, plan, cost);
        rule.begin = begin as u16;
        rule.end = end as u16;
        if rule.mode == 1 {
            open_windows(random, &mut rule, &months, cost);
        }
        if rule.kind == 4 && rule.unit > 0 && random.chance(60) {
            cut_window(random, nodes, plan, &mut rule, &months);
        }
        all.push(rule);
    }
    let targets: Vec<usize> = (0..count).filter(|k| kinds[*k] <= 2).collect();
    for k in (0..count).filter(|k| kinds[*k] == 3) {
        let to = random.pick(&targets);
        refer(random, &mut all, k, to);
    }
    all
}

/// A few sound rules and each of them again over later periods, so that some begin after a stretch in which they fail; bounds on how many are tight.
pub fn rules_again(random: &mut Random, nodes: &[Node], plan: &Plan, count: usize, cost: &Cost) -> Vec<Rule> {
    let months = month_starts();
    let few = random.between(2, 4).min(count);
    let mut all = rules(random, nodes, plan, few, cost);
    for rule in all.iter_mut().filter(|r| r.kind == 4) {
        rule.min = random.pick(&[0, 1, 1, 2, 2, 3]);
        rule.max = rule.min + random.pick(&[0, 1, 2]);
    }
    while all.len() < count {
        let mut rule = all[random.below(few)].clone();
        let begin = random.between(rule.begin as usize, rule.end as usize - 1);
        let month = months.iter().rposition(|d| *d <= begin).unwrap();
        rule.begin = if rule.mode == 1 && rule.unit == 2 { months[month].max(rule.begin as usize) } else { begin } as u16;
        all.push(rule);
    }
    all
}

/// A version for the path and a name for the field (0 for none): mostly such that the field has a value there, and
/// seldom a version of the root, since rows of one item alone share nothing.
fn target(random: &mut Random, nodes: &[Node], kind: u8) -> (usize, u16) {
    let versions: Vec<usize> = (0..nodes.len()).filter(|v| nodes[*v].kind == 2).collect();
    let valued: Vec<usize> = versions.iter().copied().filter(|v| nodes[*v].vkind > 0).collect();
    let from = if valued.is_empty() || random.chance(15) { &versions } else { &valued };
    let below: Vec<usize> = from.iter().copied().filter(|v| nodes[*v].parent != 0).collect();
    let any = below.is_empty() || random.chance(5);
    let v = random.pick(if any { from } else { &below });
    let item = &nodes[nodes[v].parent as usize];
    let holders = if item.parent < 65535 && nodes[item.parent as usize].parent != 0 { 80 } else { 25 };
    if item.parent < 65535 && (kind == 4 || random.chance(holders)) {
        return (item.parent as usize, item.name);
    }
    (v, if kind == 4 || random.chance(8) { random.between(1, 6) as u16 } else { 0 })
}

/// Path and field of a rule, some names of the path replaced by the star or by a stray one.
fn aim(random: &mut Random, nodes: &[Node], rule: &mut Rule) {
    let (base, field) = target(random, nodes, rule.kind);
    let mut names = names_to(nodes, base);
    for name in names.iter_mut() {
        if random.chance(10) {
            *name = if random.chance(90) { 65535 } else { random.between(1, 7) as u16 };
        }
    }
    if random.chance(if rule.kind <= 3 { 30 } else { 10 }) {
        *names.last_mut().unwrap() = 65535;
    }
    if random.chance(2) && names.len() < 8 {
        names.push(random.between(1, 6) as u16);
    }
    rule.steps = names.len() as u8;
    rule.path[..names.len()].copy_from_slice(&names);
    rule.field = if random.chance(3) { random.between(1, 6) as u16 } else { field };
}

fn value_of_some(random: &mut Random, nodes: &[Node]) -> i32 {
    (0..6).map(|_| random.below(nodes.len())).find(|v| nodes[*v].vkind > 0).map_or(0, |v| nodes[v].value)
}

/// Bounds of cardinality and datatype rules: some narrow, some wide, some at the ends of what a number can be.
fn bound(random: &mut Random, nodes: &[Node], rule: &mut Rule) {
    if rule.kind == 4 {
        rule.min = random.pick(&[0, 0, 0, 0, 1, 1, 1, 2, 3]);
        rule.max = rule.min + random.pick(&[0, 1, 1, 2, 3, 5, 1000]);
        if random.chance(5) {
            rule.max = i32::MAX;
        }
        rule.distinct = (rule.mode == 1 && random.chance(50)) as u8;
    }
    if rule.kind == 5 {
        let (a, b) = (value_of_some(random, nodes), value_of_some(random, nodes));
        let step = a.wrapping_sub(b);
        let (min, max) = match random.share(&[4, 2, 2, 2, 2, 2, 2, 3, 1]) {
            0 => (a, b),
            1 => (i32::MIN, i32::MAX),
            2 => (-5000, 5000),
            3 => (step, step.wrapping_neg()),
            4 => (0, i32::MAX),
            5 => (-2150, 2150),
            6 => (step, 0),
            7 => (-1, 1),
            _ => (step, step),
        };
        rule.min = min.min(max);
        rule.max = min.max(max);
    }
}

/// A period about the days of the root: inside, outside, on edges of versions, and at times the whole century.
fn period(random: &mut Random, nodes: &[Node], plan: &Plan, cost: &Cost) -> (usize, usize) {
    let (first, last) = (plan.first as usize, plan.last as usize);
    let mut edge = |day: usize| {
        let n = &nodes[random.below(nodes.len())];
        if n.kind == 2 { random.pick(&[n.begin, n.end]) as usize } else { day }
    };
    let edges = (edge(first), edge(last));
    let (a, b) = match random.share(&[22, 22, 24, 20, 3, 3, 7]) {
        0 => (first, last),
        1 => (random.between(first, last), random.between(first, last)),
        2 => (first.saturating_sub(random.below(90)), last + random.below(90)),
        3 => edges,
        4 => (last, last + 50),
        5 => (0, 36525),
        _ => (random.between(first, last), random.between(first, last) / 8 + first * 7 / 8),
    };
    let begin = a.min(b).min(36524);
    let mut end = a.max(b).min(36525).max(begin + 1);
    if end - begin > cost.days && !random.chance(cost.over) {
        end = begin + random.between(cost.days / 2, cost.days);
    }
    (begin, end)
}

/// Unit, length and slide; more windows than the cost allows are seldom.
fn open_windows(random: &mut Random, rule: &mut Rule, months: &[usize], cost: &Cost) {
    rule.unit = random.below(3) as u8;
    let most = if random.chance(cost.over) { 40000 } else { cost.windows };
    if rule.unit == 1 {
        let days = (rule.end - rule.begin) as usize;
        let mut size = |of: usize| match random.share(&[2, 3, 3, 3, 1]) {
            0 => 1,
            1 => random.between(2, 12),
            2 => random.between(10, 400),
            3 => random.between(1, of.min(36525)),
            _ => 36525,
        };
        rule.length = size(days) as u16;
        rule.slide = size(days).max(days / most) as u16;
    }
    if rule.unit == 2 {
        let start = months.iter().rposition(|d| *d <= rule.begin as usize).unwrap();
        rule.begin = months[start] as u16;
        let sizes = [1, 1, 1, 2, 3, 6, 12, 13, 120, 1199, 1200];
        rule.length = random.pick(&sizes);
        rule.slide = random.pick(&sizes).max((1200 / most) as u16);
    }
}

/// Begin and end of a field version, of one that ends before the version above it where there is one; else the rule's period.
fn field_days(random: &mut Random, nodes: &[Node], rule: &Rule) -> (usize, usize) {
    let item = |f: usize| &nodes[nodes[f].parent as usize];
    let is_field = |f: &usize| nodes[*f].kind == 2 && nodes[*f].parent > 0 && item(*f).name == rule.field;
    let all: Vec<usize> = (0..nodes.len()).filter(is_field).collect();
    let early: Vec<usize> = all.iter().copied().filter(|f| nodes[*f].end < nodes[item(*f).parent as usize].end).collect();
    if all.is_empty() {
        return (rule.begin as usize, rule.end as usize);
    }
    let f = random.pick(if early.is_empty() { &all } else { &early });
    (nodes[f].begin as usize, nodes[f].end as usize)
}

/// A window that a period's end is to cut: its first day and the day on which it would end; the length of windows, in the rule's unit;
/// and the period's begin, as many whole windows before.
struct Cut {
    first: usize,
    natural: usize,
    length: usize,
    begin: usize,
}

/// The cut window begins as a field version has ended that reached through the one before.
fn cut_by_days(random: &mut Random, days: (usize, usize), whole: usize) -> Cut {
    let length = random.between(1, days.1 - days.0).max(2);
    let first = if days.1 < 36525 { days.1.max(length) } else { 36525 - random.between(1, length - 1) };
    Cut { first, natural: first + length, length, begin: first - length * whole.min(first / length) }
}

/// As by days, with the next month; or so late that the month table ends before the window does.
fn cut_by_months(random: &mut Random, day: usize, whole: usize, late: bool, months: &[usize]) -> Cut {
    let length = if late { random.pick(&[2, 2, 3, 6, 13]) } else { random.pick(&[1, 1, 1, 2, 3]) };
    let after = months.iter().position(|d| *d >= day).unwrap();
    let month = if late { 1200 - random.between(1, length - 1) } else { after.min(1199) };
    let natural = if month + length > 1200 { 36526 } else { months[month + length] };
    Cut { first: months[month], natural, length, begin: months[month - length * whole.min(month / length)] }
}

/// A cardinality that mostly wants something in each window, over a period that ends within one: after a day, nine days or some, or a day
/// too soon; at times exactly as it begins, with the one before.
fn cut_window(random: &mut Random, nodes: &[Node], plan: &Plan, rule: &mut Rule, months: &[usize]) {
    let days = field_days(random, nodes, rule);
    let whole = random.pick(&[1, 1, 1, 2, 3]);
    let late = rule.unit == 2 && plan.last == 36525 && random.chance(60);
    let cut = if rule.unit == 1 { cut_by_days(random, days, whole) } else { cut_by_months(random, days.1, whole, late, months) };
    let most = (cut.natural - 1).min(36525);
    let end = match random.share(&[2, 1, 2, 2, 4]) {
        _ if late && random.chance(60) => 36525,
        0 if cut.begin < cut.first => cut.first,
        1 => cut.first + 1,
        2 => most,
        3 => most.min(cut.first + 9),
        _ => random.between(cut.first + 1, most),
    };
    rule.begin = cut.begin as u16;
    rule.end = end as u16;
    rule.length = cut.length as u16;
    rule.slide = random.pick(&[cut.length, cut.length, cut.length, (cut.length + 1) / 2, (cut.length * 2).min(36525)]) as u16;
    if random.chance(70) {
        rule.min = rule.min.max(1);
        rule.max = rule.min + random.pick(&[0, 1, 2, 5, 1000, 1000]);
    }
}

/// Rule k refers to rule to; often both are about the same versions, so that the values are found.
fn refer(random: &mut Random, all: &mut [Rule], k: usize, to: usize) {
    all[k].referred = to as u16;
    if random.chance(30) {
        all[k].path = all[to].path;
        all[k].steps = all[to].steps;
        all[k].field = all[to].field;
        let at = random.below(all[to].steps as usize);
        if random.chance(40) {
            all[to].path[at] = 65535;
        }
    }
}
