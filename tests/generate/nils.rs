//! Banks of nils: a few mixers whose values would be sound but for their nils, and rules that look at nothing else; so a nil decides.
use crate::random::Random;
use crate::records::{Node, Rule};

/// Names of the items: the root, a mixer, and its fields: the serial, the loss, and the serial as it is registered elsewhere.
const BANK: u16 = 1;
const MIXER: u16 = 2;
const SERIAL: u16 = 3;
const LOSS: u16 = 4;
const REGISTERED: u16 = 5;

/// The most records of such a bank; what comes after them is left out.
const MOST: usize = 40;

const NIL: (u8, i32) = (3, 0);

type Days = (u16, u16);

struct Growth<'a> {
    random: &'a mut Random,
    nodes: Vec<Node>,
}

/// A sound bank of nils over these days.
pub fn of_nils(random: &mut Random, days: Days) -> Vec<Node> {
    let mut growth = Growth { random, nodes: Vec::new() };
    let root = growth.item(65535, BANK);
    let above = growth.version(root, days, (0, 0));
    for k in 0..growth.random.between(1, 3) {
        growth.mixer(above, k as i32, days);
    }
    growth.nodes.truncate(MOST);
    growth.nodes
}

impl<'a> Growth<'a> {
    fn item(&mut self, parent: u16, name: u16) -> u16 {
        let item = self.nodes.len() as u16;
        self.nodes.push(Node { kind: 1, name, parent, item: item as u32 + 1, ..Node::default() });
        item
    }

    fn version(&mut self, item: u16, days: Days, value: (u8, i32)) -> u16 {
        self.nodes.push(Node { kind: 2, vkind: value.0, parent: item, begin: days.0, end: days.1, value: value.1, ..Node::default() });
        self.nodes.len() as u16 - 1
    }

    /// Up to so many stretches of these days one after the other; some are left out, so that there are gaps.
    fn stretches(&mut self, days: Days, most: usize) -> Vec<Days> {
        let mut cuts: Vec<u16> = (1..self.random.between(1, most)).map(|_| self.random.between(days.0 as usize, days.1 as usize) as u16).collect();
        cuts.extend([days.0, days.1]);
        cuts.sort();
        cuts.dedup();
        let gaps = self.random.pick(&[0, 0, 15]);
        cuts.windows(2).filter(|_| !self.random.chance(gaps)).map(|two| (two[0], two[1])).collect()
    }

    /// A mixer of one or two versions, all fields in each.
    fn mixer(&mut self, above: u16, k: i32, days: Days) {
        let item = self.item(above, MIXER);
        let level = self.random.pick(&[0, 0, 2000]);
        for days in self.stretches(days, 2) {
            let version = self.version(item, days, (0, 0));
            self.losses(version, level, days);
            self.field(version, SERIAL, 70 + k, days);
            self.field(version, REGISTERED, 70 + k, days);
        }
    }

    /// A field that has one text, in the same item now and then a nil instead, and at times an item beside it with a nil on some days.
    fn field(&mut self, above: u16, name: u16, text: i32, days: Days) {
        let (item, nils) = (self.item(above, name), self.random.pick(&[0, 0, 8, 30]));
        for stretch in self.stretches(days, 3) {
            let value = if self.random.chance(nils) { NIL } else { (2, text) };
            self.version(item, stretch, value);
        }
        if self.random.chance(if name == REGISTERED { 30 } else { 10 }) {
            let beside = self.item(above, name);
            let stretch = self.stretches(days, 3).pop();
            stretch.map(|stretch| self.version(beside, stretch, NIL));
        }
    }

    /// Losses that stay on a level, but that it is another one, or the same, after a nil; at times a nil lies beside them.
    fn losses(&mut self, above: u16, first: i32, days: Days) {
        let (item, mut level) = (self.item(above, LOSS), first);
        for stretch in self.stretches(days, 6) {
            let value = if self.random.chance(30) { NIL } else { (1, level + self.random.below(2) as i32) };
            self.version(item, stretch, value);
            if value == NIL {
                level = first + self.random.pick(&[0, 100, 100, 500]);
            }
        }
    }
}

/// Turns sound rules to the mixers and their fields: losses are counted and stepped, serials are keys and refer to those registered.
pub fn aim_at_nils(random: &mut Random, rules: &mut [Rule]) {
    for rule in rules.iter_mut() {
        rule.path = [BANK, random.pick(&[MIXER, MIXER, MIXER, 65535]), 0, 0, 0, 0, 0, 0];
        rule.steps = 2;
        rule.field = match rule.kind {
            1 | 2 => random.pick(&[SERIAL, REGISTERED, REGISTERED]),
            3 => SERIAL,
            4 => random.pick(&[SERIAL, LOSS, LOSS]),
            _ => LOSS,
        };
        if rule.kind == 4 {
            rule.min = random.pick(&[0, 0, 1, 1, 2]);
            rule.max = rule.min + random.pick(&[0, 1, 2, 1000]);
        }
        if rule.kind == 5 {
            let wide = random.pick(&[1, 1, 100, 500, 2501]);
            (rule.min, rule.max) = (random.pick(&[-wide, -wide, 1]), wide);
        }
    }
}
