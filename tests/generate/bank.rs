//! Sound banks: a random tree of items and versions that grows record by record and never breaks a rule of nesting.
use crate::random::Random;
use crate::records::Node;
use std::collections::HashMap;

/// How the items stand: a bank of mixers with fields, any items below any versions, or long ways down.
#[derive(Clone, Copy, PartialEq)]
pub enum Shape {
    Fields,
    Wild,
    Deep,
}

/// What a bank is to be like: its size, the days of its root, and how often versions touch and items share a number,
/// how many names of fields mixers have, whether nearly all fields are there with values of their own (so that rules fail
/// late or not at all), whether all numbers are near the ends of what 32 bits hold, and whether it is crowded: several
/// fields of one name at once, of a few values.
pub struct Plan {
    pub records: usize,
    pub deepest: usize,
    pub shape: Shape,
    pub first: u16,
    pub last: u16,
    pub touching: usize,
    pub sharing: usize,
    pub fields: usize,
    pub tidy: bool,
    pub ends: bool,
    pub crowded: bool,
}

/// What values the versions of one name have: how often none, a number, a text, and out of which numbers; and how many of a hundred are nils.
struct Manner {
    kinds: [usize; 3],
    pool: Vec<i32>,
    nils: usize,
}

const SMALL: [i32; 8] = [0, 1, 2, 70, 71, -1, 2150, -2150];
const ENDS: [i32; 8] = [i32::MIN, i32::MIN + 1, -1, 0, 1, i32::MAX - 1, i32::MAX, 1 << 30];

/// Nils of a hundred values: most names have none, some a few, so that keys fail late, some many, so that nils meet each other.
const NILS: [usize; 8] = [0, 0, 0, 0, 0, 3, 12, 35];

fn manner(random: &mut Random, ends: bool, crowded: bool) -> Manner {
    let nils = random.pick(&NILS);
    if crowded {
        let kinds = random.pick(&[[0, 1, 0], [0, 1, 0], [1, 6, 0], [1, 5, 5]]);
        return Manner { kinds, pool: (0..random.between(1, 4)).map(|k| [0, 1, 2, 70][k]).collect(), nils };
    }
    let kinds = [[0, 1, 0], [0, 1, 0], [0, 0, 1], [1, 5, 5], [1, 0, 0], [1, 6, 0], [1, 12, 1]][random.share(&[5, 3, 4, 3, 1, 3, 2])];
    let pool = match if ends { 2 } else { random.share(&[7, 3, 1, 3]) } {
        0 => (0..random.between(1, 3)).map(|_| random.pick(&SMALL)).collect(),
        1 => (0..300).map(|_| random.below(4000) as i32 - 2000).collect(),
        2 => ENDS.to_vec(),
        _ => vec![0, 1, 2, 3],
    };
    Manner { kinds, pool, nils }
}

/// Of an item: how many items stand on the way to it, its first free day and the day that its versions must end by.
/// Of a version: the first of these.
struct Place {
    depth: usize,
    next: u16,
    limit: u16,
}

struct Growth<'a> {
    random: &'a mut Random,
    plan: &'a Plan,
    nodes: Vec<Node>,
    places: Vec<Place>,
    names: [u16; 6],
    manners: Vec<Manner>,
    taken: HashMap<u32, Vec<(u16, u16)>>,
    spare: u32,
}

/// A bank as planned; it has exactly the planned number of records.
pub fn grown(random: &mut Random, plan: &Plan) -> Vec<Node> {
    let names = if random.chance(8) { [65534, 40000, 256, 3, 255, 1] } else { [1, 2, 3, 4, 5, 6] };
    let manners = (0..6).map(|_| manner(random, plan.ends, plan.crowded)).collect();
    let mut growth = Growth { random, plan, nodes: Vec::new(), places: Vec::new(), names, manners, taken: HashMap::new(), spare: 1 };
    growth.grow();
    growth.nodes
}

impl<'a> Growth<'a> {
    fn full(&self) -> bool {
        self.nodes.len() >= self.plan.records
    }

    fn grow(&mut self) {
        self.push_item(65535, self.names[0], 1);
        self.add_version(0, false);
        for _ in 0..self.plan.records * 20 {
            if self.full() {
                return;
            }
            let at = self.spot();
            if self.nodes[at].kind == 1 {
                self.add_furnished(at);
            } else {
                self.add_item(at);
            }
        }
        while !self.full() {
            self.spare += 1;
            self.push_item(1, self.names[1], self.spare);
        }
    }

    /// The record that gets a child next: any, for long ways mostly one of the last, for mixers often a version of the root.
    fn spot(&mut self) -> usize {
        let count = self.nodes.len();
        if self.plan.shape == Shape::Deep && self.random.chance(65) {
            return count - 1 - self.random.below(count.min(3));
        }
        if self.plan.shape == Shape::Fields && self.random.chance(40) {
            let roots: Vec<usize> = (0..count).filter(|v| self.nodes[*v].kind == 2 && self.nodes[*v].parent == 0).collect();
            return self.random.pick(&roots);
        }
        self.random.below(count)
    }

    fn name_at(&mut self, depth: usize) -> u16 {
        let k = match (self.plan.shape, depth) {
            (Shape::Fields, 2) => self.random.pick(&[1, 1, 1, 1, 1, 5]),
            (Shape::Fields, _) => self.random.between(2, 1 + self.plan.fields),
            (Shape::Wild, _) => self.random.below(3),
            (Shape::Deep, _) => self.random.pick(&[depth % 3, depth % 3, depth % 3, 4]),
        };
        self.names[k]
    }

    fn add_item(&mut self, version: usize) {
        let depth = self.places[version].depth + 1;
        if depth > self.plan.deepest || (self.plan.shape == Shape::Fields && depth > 3 && self.random.chance(80)) {
            return;
        }
        let name = self.name_at(depth);
        self.add_named(version, name);
        while self.plan.shape != Shape::Fields && self.random.chance(35) && !self.full() {
            self.add_named(version, name);
        }
    }

    /// An item of that name below the version, mostly with a first version of its own.
    fn add_named(&mut self, version: usize, name: u16) {
        if self.full() || self.places[version].depth + 1 > self.plan.deepest {
            return;
        }
        let number = self.number_for(name, self.nodes[version].begin, self.nodes[version].end);
        let item = self.push_item(version as u16, name, number);
        if self.random.chance(if self.plan.tidy { 99 } else { 92 }) {
            self.add_furnished(item);
        }
        while self.random.chance(if self.plan.tidy { 97 } else { 50 }) && !self.full() {
            let finish = self.random.chance(self.plan.touching / 2);
            if self.add_version(item, finish).is_none() {
                return;
            }
        }
    }

    /// A version, and where mixers have fields, mostly some fields below it.
    fn add_furnished(&mut self, item: usize) {
        if self.full() {
            return;
        }
        let finish = self.random.chance(self.plan.touching / 2);
        if let Some(version) = self.add_version(item, finish) {
            if self.plan.shape == Shape::Fields && self.places[item].depth == 2 {
                let times = if self.plan.crowded { self.random.between(1, 4) } else { 1 };
                let fields = self.plan.fields;
                for k in (0..times * fields).map(|k| 2 + k % fields) {
                    if self.random.chance(if self.plan.tidy { 98 } else { 75 }) {
                        self.add_named(version, self.names[k]);
                    }
                }
            }
        }
    }

    /// A number that an item of this name bears already and that is free on these days, else a new one.
    fn number_for(&mut self, name: u16, begin: u16, end: u16) -> u32 {
        if self.random.chance(self.plan.sharing) {
            for _ in 0..8 {
                let j = self.random.below(self.nodes.len());
                let other = &self.nodes[j];
                if other.kind == 1 && other.name == name && (self.free(other.item, begin, end) || self.random.chance(8)) {
                    return self.nodes[j].item;
                }
            }
        }
        let mut number = if self.random.chance(4) { self.random.pick(&[u32::MAX, u32::MAX - 1, 1 << 31, 65536]) } else { self.spare + 1 };
        while self.taken.contains_key(&number) {
            self.spare += 1;
            number = self.spare;
        }
        number
    }

    fn free(&self, number: u32, begin: u16, end: u16) -> bool {
        self.taken.get(&number).map_or(true, |all| all.iter().all(|(b, e)| *e <= begin || end <= *b))
    }

    fn push_item(&mut self, parent: u16, name: u16, number: u32) -> usize {
        let (depth, next, limit) = match self.nodes.get(parent as usize) {
            Some(version) => (self.places[parent as usize].depth + 1, version.begin, version.end),
            None => (1, self.plan.first, self.plan.last),
        };
        self.taken.entry(number).or_default();
        self.nodes.push(Node { kind: 1, name, parent, item: number, ..Node::default() });
        self.places.push(Place { depth, next, limit });
        self.nodes.len() - 1
    }

    /// A further version of the item, unless no day is left or another item of its number has one of the days.
    fn add_version(&mut self, item: usize, finish: bool) -> Option<usize> {
        let (next, limit) = (self.places[item].next, self.places[item].limit);
        if next >= limit || self.full() {
            return None;
        }
        let stretch = (limit - next) as usize;
        let touch = item == 0 || self.random.chance(self.plan.touching);
        let begin = if touch { next } else { next + self.random.below(stretch) as u16 };
        let left = (limit - begin) as usize;
        let longest = if self.random.chance(60) { left } else { left / 4 + 1 };
        let end = if finish || self.random.chance(25) { limit } else { begin + 1 + self.random.below(longest) as u16 };
        let number = self.nodes[item].item;
        if !self.free(number, begin, end) {
            return None;
        }
        self.taken.get_mut(&number)?.push((begin, end));
        self.places[item].next = end;
        let (vkind, value) = self.value_for(self.nodes[item].name, number);
        self.nodes.push(Node { kind: 2, vkind, parent: item as u16, begin, end, value, ..Node::default() });
        self.places.push(Place { depth: self.places[item].depth, next: 0, limit: 0 });
        Some(self.nodes.len() - 1)
    }

    fn value_for(&mut self, name: u16, number: u32) -> (u8, i32) {
        let k = self.names.iter().position(|n| *n == name).unwrap_or(0);
        let manner = &self.manners[k];
        if self.random.chance(manner.nils) {
            return (3, 0);
        }
        if self.plan.tidy && self.random.chance(97) {
            let own = (number % 100000 * 3) as i32 + self.random.below(3) as i32;
            return (if manner.kinds[1] > 0 { 1 } else { 2 }, own);
        }
        let value = self.random.pick(&manner.pool);
        match self.random.share(&manner.kinds) {
            0 => (0, 0),
            1 => (1, value),
            _ => (2, if value < 0 { -(value + 1) } else { value }),
        }
    }
}
