//! Banks of namesakes: many items of one number and one name, whose versions lie apart in time but mostly do not come in the order of
//! their days; and the flaws for which such a bank is refused with 9.
use crate::random::Random;
use crate::records::Node;
use std::collections::HashMap;

/// An item to be, of a number and a name that others have too, with the periods of its versions in the order of their days.
struct Namesake {
    number: u32,
    name: u16,
    periods: Vec<(u16, u16)>,
}

fn shuffle<T>(random: &mut Random, list: &mut [T]) {
    for k in (1..list.len()).rev() {
        list.swap(k, random.below(k + 1));
    }
}

/// Up to so many periods one after the other within these days: all touching, or some or most of them with days between.
fn periods(random: &mut Random, days: (u16, u16), count: usize) -> Vec<(u16, u16)> {
    let mut cuts: Vec<u16> = (0..count).map(|_| random.between(days.0 as usize, days.1 as usize) as u16).collect();
    cuts.extend([days.0, days.1]);
    cuts.sort();
    cuts.dedup();
    let looser = random.pick(&[0, 0, 30, 70]);
    let mut period = |begin: usize, end: usize| {
        let loose = random.chance(looser);
        let first = if loose { random.between(begin, end - 1) } else { begin };
        (first as u16, if loose { random.between(first + 1, end) } else { end } as u16)
    };
    cuts.windows(2).map(|two| period(two[0] as usize, two[1] as usize)).collect()
}

/// A list in parts of one to three.
fn parted(random: &mut Random, list: &[(u16, u16)]) -> Vec<Vec<(u16, u16)>> {
    let mut parts = vec![];
    let mut at = 0;
    while at < list.len() {
        let end = (at + random.pick(&[1, 1, 1, 2, 3])).min(list.len());
        parts.push(list[at..end].to_vec());
        at = end;
    }
    parts
}

/// Periods dealt out to items: in any order, backwards, in turns so that those of one lie between those of others, or as they come; and
/// some items that have none.
fn dealt(random: &mut Random, mut list: Vec<(u16, u16)>) -> Vec<Vec<(u16, u16)>> {
    let way = random.share(&[4, 3, 3, 1]);
    match way {
        0 => shuffle(random, &mut list),
        1 => list.reverse(),
        _ => {}
    }
    let mut items = if way == 2 {
        let turns = list.len() / random.between(2, 4) + 1;
        (0..turns).map(|k| list.iter().copied().skip(k).step_by(turns).collect()).collect()
    } else {
        parted(random, &list)
    };
    if way == 2 && random.chance(70) {
        shuffle(random, &mut items);
    }
    for _ in 0..items.len() / 10 + 1 {
        items.insert(random.below(items.len() + 1), vec![]);
    }
    for item in items.iter_mut() {
        item.sort();
    }
    items
}

/// The items of one to three numbers, dealt out each for itself and then mixed. Some numbers are 1,000 apart, or near the last.
fn drawn(random: &mut Random, days: (u16, u16), records: usize) -> Vec<Namesake> {
    let numbers = random.between(1, 3);
    let (least, step) = (random.pick(&[2, 65536, u32::MAX - 2002]), random.pick(&[1, 1000]));
    let mut piles: Vec<Vec<Namesake>> = vec![];
    for k in 0..numbers {
        let (number, name) = (least + k as u32 * step, random.pick(&[2, 3, 3, 4]));
        let list = periods(random, days, records * 2 / (numbers * 3));
        piles.push(dealt(random, list).into_iter().rev().map(|periods| Namesake { number, name, periods }).collect());
    }
    let mut all = vec![];
    while !piles.is_empty() {
        let k = random.below(piles.len());
        match piles[k].pop() {
            Some(namesake) => all.push(namesake),
            None => drop(piles.remove(k)),
        }
    }
    all
}

/// The root with one to three versions, and some mixers with a version each: all these versions can be stood in.
fn homes(random: &mut Random, days: (u16, u16), mixers: usize) -> Vec<Node> {
    let mut cuts: Vec<u16> = (0..random.pick(&[0, 0, 1, 2])).map(|_| random.between(days.0 as usize, days.1 as usize) as u16).collect();
    cuts.extend([days.0, days.1]);
    cuts.sort();
    cuts.dedup();
    let mut nodes = vec![Node { kind: 1, name: 1, parent: 65535, item: 1, ..Node::default() }];
    nodes.extend(cuts.windows(2).map(|two| Node { kind: 2, begin: two[0], end: two[1], ..Node::default() }));
    for k in 0..mixers {
        let above = random.between(1, cuts.len() - 1);
        let (begin, end) = (nodes[above].begin as usize, nodes[above].end as usize);
        let first = if random.chance(50) { begin } else { random.between(begin, end - 1) };
        let last = if random.chance(50) { end } else { random.between(first + 1, end) };
        nodes.push(Node { kind: 1, name: 2, parent: above as u16, item: 5_000_000 + k as u32, ..Node::default() });
        nodes.push(Node { kind: 2, parent: nodes.len() as u16 - 1, begin: first as u16, end: last as u16, ..Node::default() });
    }
    nodes
}

fn within(node: &Node, period: &(u16, u16)) -> bool {
    node.kind == 2 && node.begin <= period.0 && period.1 <= node.end
}

/// A version in which the namesake can stand; where none has all its periods, it is left with those within a version of the root.
fn home(random: &mut Random, homes: &[Node], namesake: &mut Namesake) -> u16 {
    let fits = |h: &usize| homes[*h].kind == 2 && namesake.periods.iter().all(|p| within(&homes[*h], p));
    let fitting: Vec<usize> = (0..homes.len()).filter(fits).collect();
    if !fitting.is_empty() {
        return random.pick(&fitting) as u16;
    }
    let roots = (1..homes.len()).filter(|h| homes[*h].kind == 2 && homes[*h].parent == 0);
    let home = roots.max_by_key(|h| namesake.periods.iter().filter(|p| within(&homes[*h], p)).count()).unwrap();
    namesake.periods.retain(|p| within(&homes[home], p));
    home as u16
}

fn version(random: &mut Random, item: usize, period: (u16, u16)) -> Node {
    let (vkind, value) = match random.share(&[3, 18, 9, 1]) {
        0 => (0, 0),
        1 => (1, random.below(4) as i32),
        2 => (2, 70 + random.below(3) as i32),
        _ => (3, 0),
    };
    Node { kind: 2, vkind, parent: item as u16, begin: period.0, end: period.1, value, ..Node::default() }
}

/// The versions of items that all stand before them, an item and the periods that it has left: any item's next one, or the next one by days.
fn later_versions(random: &mut Random, mut items: Vec<(usize, Vec<(u16, u16)>)>, by_days: bool) -> Vec<Node> {
    let mut nodes = vec![];
    items.retain(|(_, periods)| !periods.is_empty());
    while !items.is_empty() {
        let soonest = (0..items.len()).min_by_key(|k| items[*k].1[0]);
        let k = if by_days { soonest.unwrap() } else { random.below(items.len()) };
        let (item, periods) = &mut items[k];
        nodes.push(version(random, *item, periods.remove(0)));
        items.retain(|(_, periods)| !periods.is_empty());
    }
    nodes
}

/// A sound bank of namesakes with exactly so many records. Versions come each after its item, or after all items.
pub fn namesakes(random: &mut Random, days: (u16, u16), records: usize) -> Vec<Node> {
    let mixers = random.below(records / 8 + 1);
    let homes = homes(random, days, mixers.min(40));
    let mut nodes = homes.clone();
    let way = random.share(&[7, 2, 1]);
    let mut later = vec![];
    for mut namesake in drawn(random, days, records - homes.len()) {
        let (parent, item) = (home(random, &homes, &mut namesake), nodes.len());
        nodes.push(Node { kind: 1, name: namesake.name, parent, item: namesake.number, ..Node::default() });
        if way == 0 {
            nodes.extend(namesake.periods.into_iter().map(|period| version(random, item, period)));
        } else {
            later.push((item, namesake.periods));
        }
    }
    nodes.extend(later_versions(random, later, way == 2));
    nodes.truncate(records);
    while nodes.len() < records {
        nodes.push(Node { kind: 1, name: 5, parent: 1, item: 4_000_000, ..Node::default() });
    }
    nodes
}

/// Versions of one number that come one after the other in time and are of two items, the sooner first.
fn neighbours(nodes: &[Node]) -> Vec<(usize, usize)> {
    let number = |v: usize| nodes[nodes[v].parent as usize].item;
    let mut all: Vec<usize> = (0..nodes.len()).filter(|v| nodes[*v].kind == 2).collect();
    all.sort_by_key(|v| (number(*v), nodes[*v].begin));
    let apart = |two: &&[usize]| number(two[0]) == number(two[1]) && nodes[two[0]].parent != nodes[two[1]].parent;
    all.windows(2).filter(apart).map(|two| (two[0], two[1])).collect()
}

/// Makes a version longer, or moves it, until it shares a day with its neighbour and no more, if it can stay within the version in which its
/// item stands; gives the higher of the two items.
fn share_day(random: &mut Random, nodes: &mut [Node]) -> Option<usize> {
    let mut pairs = neighbours(nodes);
    shuffle(random, &mut pairs);
    for (u, v) in pairs {
        let (sooner, later) = (nodes[u].clone(), nodes[v].clone());
        let less = later.begin + 1 - sooner.end;
        match random.below(4) {
            0 => nodes[u].end += less,
            1 => nodes[v].begin -= less,
            2 => (nodes[u].begin, nodes[u].end) = (sooner.begin + less, sooner.end + less),
            _ => (nodes[v].begin, nodes[v].end) = (later.begin - less, later.end - less),
        }
        let stays = |w: usize| within(&nodes[nodes[nodes[w].parent as usize].parent as usize], &(nodes[w].begin, nodes[w].end));
        if stays(u) && stays(v) {
            return Some(nodes[u].parent.max(nodes[v].parent) as usize);
        }
        (nodes[u], nodes[v]) = (sooner, later);
    }
    None
}

/// Another name for one of the items of a shared number that may have it.
fn rename(random: &mut Random, nodes: &mut [Node], may: impl Fn(usize) -> bool) {
    let mut count: HashMap<u32, usize> = HashMap::new();
    for node in nodes.iter().filter(|n| n.kind == 1) {
        *count.entry(node.item).or_default() += 1;
    }
    let shared: Vec<usize> = (0..nodes.len()).filter(|k| nodes[*k].kind == 1 && count[&nodes[*k].item] > 1 && may(*k)).collect();
    if !shared.is_empty() {
        let k = random.pick(&shared);
        nodes[k].name = nodes[k].name % 6 + 1;
    }
}

/// In half of the banks nothing, else a shared day, an item renamed, or both, at an item below the one with the shared day or above it.
pub fn flaw(random: &mut Random, nodes: &mut [Node]) {
    match random.share(&[50, 20, 12, 18]) {
        0 => {}
        1 => drop(share_day(random, nodes)),
        2 => rename(random, nodes, |_| true),
        _ => {
            let below = random.chance(50);
            if let Some(item) = share_day(random, nodes) {
                rename(random, nodes, |k| if below { k < item } else { item < k });
            }
        }
    }
}
