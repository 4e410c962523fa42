//! Writes a file of random pairs of images, for comparing programs: sound ones, ones at an edge, damaged ones and garbage.
//!
//! usage: generate SEED SMALL LARGE OUT
//!
//! SMALL pairs have 2 to 40 records and 1 to 10 rules, LARGE ones 500 to 1,000 records and up to 100 rules; the large ones
//! stand evenly among the small ones. The same seed and counts give the same file. Of a hundred small pairs 26 are sound,
//! 18 crowded, 6 of namesakes, 6 of nils, 16 at an edge, 22 damaged, 6 garbage; of a hundred large ones 66 are sound, 10 of
//! namesakes, 10 at an edge, 14 damaged. Half of those of namesakes have a flaw by which items clash. Of the names in each
//! bank three in eight have nils among their values.
use std::fs::File;
use std::io::{self, BufWriter, Write};

#[path = "generate/asks.rs"]
mod asks;
#[path = "generate/bank.rs"]
mod bank;
#[path = "generate/damage.rs"]
mod damage;
#[path = "generate/namesakes.rs"]
mod namesakes;
#[path = "generate/nils.rs"]
mod nils;
#[path = "generate/random.rs"]
mod random;
#[path = "generate/records.rs"]
mod records;
#[path = "generate/table.rs"]
mod table;

use bank::{grown, Plan, Shape};
use damage::{break_images, break_node, break_rule, deepen, garbage, nudge, tangle};
use namesakes::{flaw, namesakes};
use nils::{aim_at_nils, of_nils};
use random::Random;
use records::{Images, Pair};
use table::{rules, rules_again, Cost};

/// The days of the root: mostly some hundreds or thousands of days, sometimes up to either end of the century.
fn days(random: &mut Random) -> (u16, u16) {
    let span = match random.share(&[4, 9, 6, 1]) {
        0 => random.between(2, 60),
        1 => random.between(60, 900),
        2 => random.between(900, 5000),
        _ => random.between(5000, 36525),
    };
    let first = match random.share(&[3, 12, 3]) {
        0 => 0,
        1 => random.below(36526 - span),
        _ => 36525 - span,
    };
    (first as u16, (first + span) as u16)
}

fn plan(random: &mut Random, records: usize) -> Plan {
    let (first, last) = days(random);
    let tidy = random.chance(35);
    Plan {
        records,
        deepest: 8,
        shape: random.pick(&[Shape::Fields, Shape::Fields, Shape::Fields, Shape::Wild, Shape::Deep]),
        first,
        last,
        touching: if tidy { 100 } else { random.pick(&[30, 60, 90, 100]) },
        sharing: random.pick(&[0, 30, 60]),
        fields: random.pick(&[1, 1, 2, 3]),
        tidy,
        ends: random.chance(10),
        crowded: false,
    }
}

fn sound(random: &mut Random, plan: &Plan, count: usize, cost: &Cost) -> Pair {
    let nodes = grown(random, plan);
    let rules = rules(random, &nodes, plan, count, cost);
    Pair { nodes, rules }
}

fn small_cost() -> Cost {
    Cost { days: 4000, windows: 300, over: 4 }
}

fn small_sound(random: &mut Random) -> Pair {
    let records = if random.chance(15) { random.between(2, 10) } else { random.between(10, 40) };
    let plan = plan(random, records);
    let count = random.between(1, 10);
    sound(random, &plan, count, &small_cost())
}

/// A crowded little bank: few days, few values, several fields of one name at once, item numbers again. What fails in it
/// seldom fails on its first day alone.
fn small_crowded(random: &mut Random) -> Pair {
    let records = random.between(20, 40);
    let span = random.between(4, 90);
    let first = random.below(36526 - span);
    let tidy = random.chance(20);
    let plan = Plan {
        deepest: 3,
        shape: Shape::Fields,
        first: first as u16,
        last: (first + span) as u16,
        touching: random.pick(&[30, 60, 90]),
        sharing: random.pick(&[30, 60, 90]),
        fields: random.pick(&[1, 1, 2]),
        tidy,
        ends: false,
        crowded: true,
        records,
    };
    let nodes = grown(random, &plan);
    let rules = rules_again(random, &nodes, &plan, 10, &small_cost());
    Pair { nodes, rules }
}

/// A pair at an edge: full blocks, the deepest way, the last days of the century, the ends of numbers, versions that touch.
fn small_edge(random: &mut Random) -> Pair {
    let records = if random.chance(80) { random.pick(&[24, 25, 26, 50, 51, 75]) } else { random.between(2, 40) };
    let mut plan = plan(random, records);
    let count = random.pick(&[1, 9, 10, 11, 20, 21]);
    match random.below(5) {
        0 => {
            plan.last = 36525;
            plan.first = random.pick(&[36524, 36523, 36494, 36400]);
        }
        1 => plan.ends = true,
        2 => plan.shape = Shape::Deep,
        3 => plan.touching = 100,
        _ => plan.sharing = 90,
    }
    let mut pair = sound(random, &plan, count, &small_cost());
    match random.below(4) {
        0 => {
            let deepest = random.pick(&[8, 8, 9]);
            deepen(random, &mut pair, deepest);
        }
        1 => nudge(random, &mut pair),
        _ => {}
    }
    pair
}

/// How many rules a large bank has and what they may cost: few and short periods for most, since a checker that looks at each day would
/// take long over many.
fn large_cost(random: &mut Random, edge: bool) -> (usize, Cost) {
    let count = match random.share(&[80, 15, 5]) {
        _ if edge && random.chance(40) => random.pick(&[100, 100, 99, 90, 91]),
        0 => random.between(1, 12),
        1 => random.between(10, 40),
        _ => random.between(40, 100),
    };
    let over = if count < 15 { 2 } else { 0 };
    (count, Cost { days: 30000 / (count + 9), windows: 3000 / (count + 9), over })
}

fn large(random: &mut Random, edge: bool) -> Pair {
    let records = if edge { random.pick(&[1000, 1000, 999, 975, 976]) } else { random.between(500, 1000) };
    let plan = plan(random, records);
    let (count, cost) = large_cost(random, edge);
    let mut pair = sound(random, &plan, count, &cost);
    if edge && random.chance(30) {
        nudge(random, &mut pair);
    }
    pair
}

/// A sound bank of namesakes with a day for each record or many more, and rules over it; what clashes comes later.
fn of_namesakes(random: &mut Random, is_large: bool) -> Pair {
    let records = if is_large { random.between(500, 1000) } else { random.between(12, 40) };
    let span = (records * random.pick(&[1, 3, 40])).min(36525);
    let first = random.below(36526 - span);
    let mut plan = plan(random, records);
    (plan.first, plan.last) = (first as u16, (first + span) as u16);
    let (count, cost) = if is_large { large_cost(random, false) } else { (random.between(1, 10), small_cost()) };
    let nodes = namesakes(random, (plan.first, plan.last), records);
    let rules = rules(random, &nodes, &plan, count, &cost);
    Pair { nodes, rules }
}

/// A little bank of nils, and rules that look at them.
fn small_nils(random: &mut Random) -> Pair {
    let mut plan = plan(random, 0);
    if plan.last - plan.first > 900 {
        plan.last = plan.first + random.between(20, 900) as u16;
    }
    let nodes = of_nils(random, (plan.first, plan.last));
    let count = random.between(2, 10);
    let mut rules = rules(random, &nodes, &plan, count, &small_cost());
    aim_at_nils(random, &mut rules);
    Pair { nodes, rules }
}

/// One to three breaks: of nodes, of rules, of the images as bytes; or several of nesting.
fn damaged(random: &mut Random, mut pair: Pair) -> Images {
    if random.chance(20) {
        tangle(random, &mut pair);
        return pair.images();
    }
    let breaks = random.pick(&[1, 1, 1, 2, 2, 3]);
    let mut later = 0;
    for _ in 0..breaks {
        match random.share(&[5, 6, 4]) {
            0 => break_node(random, &mut pair),
            1 => break_rule(random, &mut pair),
            _ => later += 1,
        }
    }
    let mut images = pair.images();
    for _ in 0..later {
        break_images(random, &mut images);
    }
    images
}

/// The next pair as it stands in the file.
fn next_pair(random: &mut Random, is_large: bool) -> Vec<u8> {
    let shares = if is_large { [66, 10, 14, 0, 0, 10, 0] } else { [26, 16, 22, 6, 18, 6, 6] };
    let class = random.share(&shares);
    let mut pair = match class {
        5 => of_namesakes(random, is_large),
        6 => small_nils(random),
        _ if is_large => large(random, class == 1),
        1 => small_edge(random),
        4 => small_crowded(random),
        _ => small_sound(random),
    };
    let asked = asks::asked(random, &pair, if class == 1 { 40 } else { 12 });
    if class == 5 {
        flaw(random, &mut pair.nodes);
    }
    let mut images = if class == 2 { damaged(random, pair) } else { pair.images() };
    if class == 3 {
        garbage(random, &mut images);
    }
    let mut out = asks::header(&images, &asked);
    out.extend(images.nodes);
    out.extend(images.rules);
    out
}

fn main() -> io::Result<()> {
    let words: Vec<String> = std::env::args().collect();
    if words.len() != 5 {
        eprintln!("usage: generate SEED SMALL LARGE OUT");
        std::process::exit(2);
    }
    let number = |k: usize| words[k].parse::<u64>().expect("a number");
    let (mut random, small, large) = (Random::new(number(1)), number(2), number(3));
    let mut out = BufWriter::new(File::create(&words[4])?);
    let all = small + large;
    for k in 0..all {
        let is_large = (k + 1) * large / all > k * large / all;
        out.write_all(&next_pair(&mut random, is_large))?;
    }
    out.flush()
}
