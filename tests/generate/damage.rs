//! Damage: sound pairs with fields moved to an edge or broken, blocks broken with their checks mended or not, and garbage.
use crate::random::Random;
use crate::records::{mend, Images, Node, Pair};

/// A record of that kind (1 item, 2 version), if a few tries find one; at random places, so that the order of refusals shows.
fn some(random: &mut Random, nodes: &[Node], kind: u8) -> usize {
    (0..10).map(|_| random.below(nodes.len())).find(|i| nodes[*i].kind == kind).unwrap_or(if kind == 2 { nodes.len() - 1 } else { 0 })
}

/// Moves an end of a version to that of its parent or its neighbour, or one day to either side of it.
pub fn nudge(random: &mut Random, pair: &mut Pair) {
    let nodes = &mut pair.nodes;
    let v = some(random, nodes, 2);
    let item = nodes[v].parent as usize;
    let days = (0..nodes.len()).filter(|u| nodes[*u].kind == 2 && nodes[*u].parent as usize == item && *u != v);
    let mut edges: Vec<u16> = days.flat_map(|u| vec![nodes[u].begin, nodes[u].end]).collect();
    if let Some(holder) = nodes.get(item).and_then(|i| nodes.get(i.parent as usize)) {
        edges.extend([holder.begin, holder.end, holder.end]);
    }
    edges.push(36525);
    let edge = random.pick(&edges).wrapping_add(random.pick(&[0, 0, 1, 65535]));
    if edge > nodes[v].begin && random.chance(70) {
        nodes[v].end = edge;
    } else if edge < nodes[v].end {
        nodes[v].begin = edge;
    }
}

/// How many items stand on the way to record v; a parent that is none ends the count.
fn items_above(nodes: &[Node], v: usize) -> usize {
    let mut items = 0;
    let mut at = v;
    while let Some(item) = nodes.get(nodes[at].parent as usize) {
        items += 1;
        at = item.parent as usize;
        if at >= nodes.len() || items > 20 {
            break;
        }
    }
    items
}

/// Items and versions below each other from some version on, until so many items stand on the way.
pub fn deepen(random: &mut Random, pair: &mut Pair, deepest: usize) {
    let nodes = &mut pair.nodes;
    let mut at = some(random, nodes, 2);
    for _ in items_above(nodes, at)..deepest {
        let (begin, end) = (nodes[at].begin, nodes[at].end);
        let item = nodes.len() as u16;
        if item > 998 {
            return;
        }
        nodes.push(Node { kind: 1, name: 2 + item % 2, parent: at as u16, item: 3_000_000 + item as u32, ..Node::default() });
        nodes.push(Node { kind: 2, vkind: 1, parent: item, begin, end, value: 7, ..Node::default() });
        at = nodes.len() - 1;
    }
}

fn break_item(random: &mut Random, nodes: &mut [Node]) {
    let i = some(random, nodes, 1);
    let n = &mut nodes[i];
    match random.below(8) {
        0 => n.vkind = random.pick(&[1, 2, 3]),
        1 => n.begin = random.pick(&[1, 36525, 65535]),
        2 => n.end = random.pick(&[1, 36525, 65535]),
        3 => n.value = random.pick(&[1, -1, i32::MIN]),
        4 => n.item = 0,
        5 => n.name = random.pick(&[0, 65535]),
        _ => n.kind = random.pick(&[0, 2, 3, 255]),
    }
}

fn break_version(random: &mut Random, nodes: &mut [Node]) {
    let v = some(random, nodes, 2);
    let n = &mut nodes[v];
    match random.below(11) {
        0 => n.name = random.pick(&[1, 65535]),
        1 => n.item = random.pick(&[1, u32::MAX]),
        2 => n.end = n.begin,
        3 => n.end = n.begin.wrapping_sub(1),
        4 => n.end = random.pick(&[36526, 65535]),
        5 => n.vkind = random.pick(&[4, 255]),
        6 => {
            n.vkind = 0;
            n.value = random.pick(&[1, i32::MIN, 65536]);
        }
        7 => {
            n.vkind = 2;
            n.value = random.pick(&[-1, i32::MIN]);
        }
        8 | 9 => {
            n.vkind = 3;
            n.value = random.pick(&[1, -1, 256, i32::MIN, i32::MAX]);
        }
        _ => n.kind = random.pick(&[0, 1, 3, 255]),
    }
}

fn break_parent(random: &mut Random, nodes: &mut [Node]) {
    let count = nodes.len();
    let i = if random.chance(10) { 0 } else { random.below(count) };
    nodes[i].parent = match random.below(6) {
        0 => i as u16,
        1 => (i + 1) as u16,
        2 => 65535,
        3 => random.below(count) as u16,
        4 => random.below(i + 1) as u16,
        _ => count as u16,
    };
}

/// Numbers and names of items that clash, or only may: two items of one number, or one of them renamed.
fn clash(random: &mut Random, nodes: &mut [Node]) {
    let (i, j) = (some(random, nodes, 1), some(random, nodes, 1));
    if random.chance(70) {
        nodes[i].item = nodes[j].item;
        if random.chance(50) {
            nodes[i].name = nodes[j].name;
        }
    } else {
        let shared = |k: usize| nodes.iter().filter(|n| n.kind == 1 && n.item == nodes[k].item).count() > 1;
        let twins: Vec<usize> = (0..nodes.len()).filter(|k| shared(*k)).collect();
        let k = if twins.is_empty() { i } else { random.pick(&twins) };
        nodes[k].name = random.between(1, 6) as u16;
    }
}

/// A further version of the root, mostly with a gap before it.
fn gap(random: &mut Random, nodes: &mut Vec<Node>) {
    let last = nodes.iter().filter(|n| n.kind == 2 && n.parent == 0).map(|n| n.end).max().unwrap_or(0);
    let begin = last.saturating_add(random.pick(&[0, 1, 1, 30])).min(36523);
    let end = random.between(begin as usize + 1, 36525) as u16;
    if nodes.len() < 1000 {
        nodes.push(Node { kind: 2, parent: 0, begin, end, ..Node::default() });
    }
}

/// The root without a version, with a gap, or as a version of nothing.
fn break_root(random: &mut Random, pair: &mut Pair) {
    let nodes = &mut pair.nodes;
    match random.below(4) {
        0 => nodes.truncate(1),
        1 => {
            nodes[0] = nodes[nodes.len() - 1].clone();
            nodes[0].parent = 65535;
        }
        _ => gap(random, nodes),
    }
}

/// A last record that may not decode or may have a bad parent.
fn stray(random: &mut Random, nodes: &mut Vec<Node>) {
    let parent = random.below(nodes.len() + 2) as u16;
    let (kind, (vkind, value)) = (random.pick(&[1, 2, 2, 2, 3]), random.pick(&[(0, 0), (0, 0), (3, 0), (3, 1), (4, 0)]));
    let (name, item) = if kind == 1 { (2, 4_000_000) } else { (0, 0) };
    if nodes.len() < 1000 {
        nodes.push(Node { kind, vkind, name, parent, item, value, begin: 0, end: (kind == 2) as u16 * 36525, ..Node::default() });
    }
}

/// Some breaks of nesting at once, so that their order shows: days, depth, item numbers, the root, a bad record after them.
pub fn tangle(random: &mut Random, pair: &mut Pair) {
    for _ in 0..random.between(2, 4) {
        match random.share(&[3, 2, 4, 4, 2]) {
            0 => nudge(random, pair),
            1 => deepen(random, pair, 9),
            2 => clash(random, &mut pair.nodes),
            3 => gap(random, &mut pair.nodes),
            _ => stray(random, &mut pair.nodes),
        }
    }
}

/// Breaks one field, or a few that hang together, of some node.
pub fn break_node(random: &mut Random, pair: &mut Pair) {
    match random.share(&[3, 4, 5, 6, 9, 3, 7, 5]) {
        0 => {
            let i = random.below(pair.nodes.len());
            pair.nodes[i].tail = random.pick(&[1, 256, 65535]);
        }
        1 => break_item(random, &mut pair.nodes),
        2 => break_version(random, &mut pair.nodes),
        3 => break_parent(random, &mut pair.nodes),
        4 => nudge(random, pair),
        5 => {
            let deepest = random.between(8, 12);
            deepen(random, pair, deepest);
        }
        6 => clash(random, &mut pair.nodes),
        _ => break_root(random, pair),
    }
}

/// Kind, mode, path, field or referred rule of a rule.
fn break_aim(random: &mut Random, pair: &mut Pair) {
    let k = random.below(pair.rules.len());
    let r = &mut pair.rules[k];
    match random.below(8) {
        0 => r.kind = random.pick(&[0, 6, 255]),
        1 => r.mode = random.pick(&[2, 255]),
        2 => r.steps = random.pick(&[0, 9, 255, r.steps.wrapping_add(1), r.steps.wrapping_sub(1)]),
        3 => r.path[random.below(8)] = random.pick(&[0, 1, 65535]),
        4 => r.field = random.pick(&[65535, 0]),
        5 => r.referred = random.pick(&[0, 65534, 65535]),
        6 => r.kind = random.between(1, 5) as u8,
        _ => r.mode = 1 - r.mode.min(1),
    }
}

/// What only some kinds may have: byte 19, bounds, a field of a cardinality rule.
fn break_bounds(random: &mut Random, pair: &mut Pair) {
    let k = random.below(pair.rules.len());
    let r = &mut pair.rules[k];
    match random.below(6) {
        0 => r.distinct = 1,
        1 => r.distinct = 2,
        2 => std::mem::swap(&mut r.min, &mut r.max),
        3 => r.min = random.pick(&[-1, -1, 1, i32::MIN]),
        4 => r.max = random.pick(&[-1, 1, i32::MAX]),
        _ if r.kind == 4 => r.field = 0,
        _ => r.kind = 4,
    }
}

/// The period of a rule.
fn break_period(random: &mut Random, pair: &mut Pair) {
    let k = random.below(pair.rules.len());
    let r = &mut pair.rules[k];
    match random.below(5) {
        0 => r.end = r.begin,
        1 => r.end = random.pick(&[36525, 36526, 65535]),
        2 => r.begin = r.begin.wrapping_add(random.pick(&[1, 65535])),
        3 => r.begin = random.pick(&[0, 31, 59, 60, 36494, 36525]),
        _ => std::mem::swap(&mut r.begin, &mut r.end),
    }
}

/// Unit, length or slide of a rule, mostly just past what its unit allows.
fn break_window(random: &mut Random, pair: &mut Pair) {
    let k = random.below(pair.rules.len());
    let r = &mut pair.rules[k];
    let past = match r.unit {
        0 => random.pick(&[1, 36525]),
        1 => random.pick(&[0, 36526, 36525]),
        _ => random.pick(&[0, 1201, 1200]),
    };
    match random.below(5) {
        0 | 1 => r.length = past,
        2 | 3 => r.slide = past,
        _ => {
            r.unit = random.pick(&[0, 1, 1, 2, 2, 3]);
            r.length = random.pick(&[r.length, 1, 1200, 1201]);
            r.slide = random.pick(&[r.slide, 1, 1200, 1201]);
        }
    }
}

/// A reference to a rule that is missing or of another kind, or to any rule at all.
fn break_reference(random: &mut Random, pair: &mut Pair) {
    let count = pair.rules.len();
    let k = random.below(count);
    let r = &mut pair.rules[k];
    r.kind = 3;
    r.min = 0;
    r.max = 0;
    r.distinct = 0;
    let any = random.below(count) as u16;
    r.referred = random.pick(&[k as u16, count as u16, count as u16 - 1, 65535, 0, any, any, 100]);
}

/// Breaks one field, or a few that hang together, of some rule.
pub fn break_rule(random: &mut Random, pair: &mut Pair) {
    let k = random.below(pair.rules.len());
    match random.share(&[1, 2, 4, 4, 3, 5, 4]) {
        0 => pair.rules[k].gap = random.pick(&[1, 255]),
        1 => pair.rules[k].tail[random.below(8)] = random.pick(&[1, 255]),
        2 => break_aim(random, pair),
        3 => break_bounds(random, pair),
        4 => break_period(random, pair),
        5 => break_window(random, pair),
        _ => break_reference(random, pair),
    }
}

/// Breaks the frame of a block, a byte after its last record, or any byte, and mends the check.
fn break_block(random: &mut Random, image: &mut [u8], size: usize) {
    let blocks = image.len() / 512;
    let b = if random.chance(40) { blocks - 1 } else { random.below(blocks) };
    let block = &mut image[b * 512..b * 512 + 512];
    let count = block[4] as usize;
    let any = random.next() as u8;
    match random.share(&[2, 3, 2, 2, 5, 3]) {
        0 => block[random.below(4)] ^= random.pick(&[1, 2, 255]),
        1 => block[random.pick(&[4, 4, 4, 5])] = random.pick(&[0, 1, 9, 10, 11, 24, 25, 26, block[4].wrapping_add(1), block[4].wrapping_sub(1)]),
        2 => block[6] = random.pick(&[0, 1, 2, 3]),
        3 => block[7] = random.pick(&[1, 255]),
        4 if 8 + count * size < 508 => block[random.between(8 + count * size, 507)] = random.pick(&[1, 255]),
        _ => block[random.below(508)] = random.pick(&[0, 1, 2, 3, 255, any]),
    }
    mend(image, b);
}

/// Changes the length of an image: empty, cut, a byte more, a block less, doubled or swapped blocks.
fn break_length(random: &mut Random, image: &mut Vec<u8>, most: usize) {
    let blocks = image.len() / 512;
    match random.below(6) {
        0 => image.clear(),
        1 => image.truncate(random.below(blocks * 512)),
        2 => image.push(0),
        3 => image.truncate((blocks - 1) * 512),
        4 if blocks < most => image.extend_from_within(0..512),
        _ => {
            let (a, b) = (random.below(blocks), random.below(blocks));
            for k in 0..512 {
                image.swap(a * 512 + k, b * 512 + k);
            }
        }
    }
}

/// Breaks one of the two images as bytes: frame, length, or a single byte whose check is not mended.
pub fn break_images(random: &mut Random, images: &mut Images) {
    let (image, size, most) = if random.chance(50) { (&mut images.nodes, 20, 40) } else { (&mut images.rules, 50, 10) };
    if image.len() < 512 || image.len() % 512 != 0 {
        return;
    }
    match random.share(&[5, 2, 2]) {
        0 => break_block(random, image, size),
        1 => break_length(random, image, most),
        _ => {
            let at = random.below(image.len());
            image[at] ^= random.between(1, 255) as u8;
        }
    }
}

fn noise(random: &mut Random, length: usize) -> Vec<u8> {
    (0..length).map(|_| random.next() as u8).collect()
}

/// Blocks with a right frame and check about records of random or of zero bytes.
fn framed(random: &mut Random, kind: u8, each: u8, size: usize) -> Vec<u8> {
    let blocks = random.between(1, 3);
    let mut image = vec![0; blocks * 512];
    let zero = random.chance(30);
    for b in 0..blocks {
        let count = if b + 1 < blocks { each } else { random.between(1, each as usize) as u8 };
        let block = &mut image[b * 512..b * 512 + 512];
        block[..8].copy_from_slice(&[b as u8, 0, 0, 0, count, 0, kind, 0]);
        if !zero {
            block[8..8 + count as usize * size].copy_from_slice(&noise(random, count as usize * size));
        }
        mend(&mut image, b);
    }
    image
}

/// Images of random bytes, cut ones, swapped ones, blocks of zeros, right frames about nonsense.
pub fn garbage(random: &mut Random, images: &mut Images) {
    match random.below(8) {
        0 => std::mem::swap(&mut images.nodes, &mut images.rules),
        1 => images.rules = images.nodes.iter().copied().take(5121).collect(),
        2 => images.nodes = vec![0; 512 * random.between(1, 40)],
        3 => images.rules = vec![0; 512 * random.between(1, 10)],
        4 => images.nodes = framed(random, 1, 25, 20),
        5 => images.rules = framed(random, 2, 10, 50),
        6 => {
            let length = random.pick(&[0, 1, 511, 512, 513, 1024, 20480, 20481]);
            images.nodes = noise(random, length);
        }
        _ => {
            let length = random.pick(&[0, 1, 511, 512, 513, 1024, 5120, 5121]);
            images.rules = noise(random, length);
        }
    }
}
