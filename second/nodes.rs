//! Nodes: records as items and versions, of an image or by themselves, and the refusals 4 to 10 that they can meet.
use crate::images::{i32_at, records, u16_at, u32_at, Refusal, NODES};

pub struct Node {
    pub kind: u8,
    pub vkind: u8,
    pub name: u16,
    pub parent: u16,
    pub begin: u16,
    pub end: u16,
    pub value: i32,
    pub item: u32,
}

/// A value that is present: a number, a text code, or a nil, which stands for one that is known to be unknown.
#[derive(Clone, Copy)]
pub enum Value {
    Number(i32),
    Text(i32),
    Nil,
}

/// Values are equal if kind and number are; a nil equals no value, not even another nil.
impl PartialEq for Value {
    fn eq(&self, other: &Value) -> bool {
        match (self, other) {
            (Value::Number(a), Value::Number(b)) => a == b,
            (Value::Text(a), Value::Text(b)) => a == b,
            _ => false,
        }
    }
}

impl Value {
    pub fn is_nil(&self) -> bool {
        matches!(self, Value::Nil)
    }
}

/// All records, and for each record the records whose parent it is: an item's versions, a version's items.
pub struct Bank {
    pub nodes: Vec<Node>,
    pub under: Vec<Vec<usize>>,
}

impl Bank {
    /// The value of a version; kind 0 gives none.
    pub fn value(&self, v: usize) -> Option<Value> {
        let n = &self.nodes[v];
        match n.vkind {
            0 => None,
            1 => Some(Value::Number(n.value)),
            2 => Some(Value::Text(n.value)),
            _ => Some(Value::Nil),
        }
    }

    /// The item number of the item whose version v is.
    pub fn item_number(&self, v: usize) -> u32 {
        self.nodes[self.nodes[v].parent as usize].item
    }
}

fn node(s: &[u8]) -> Node {
    Node {
        kind: s[0],
        vkind: s[1],
        name: u16_at(s, 2),
        parent: u16_at(s, 4),
        begin: u16_at(s, 6),
        end: u16_at(s, 8),
        value: i32_at(s, 10),
        item: u32_at(s, 14),
    }
}

pub fn is_period(begin: u16, end: u16) -> bool {
    begin < end && end <= 36525
}

/// Each field but the parent is as its table says.
fn fields_fit(n: &Node) -> bool {
    match n.kind {
        1 => n.vkind == 0 && 1 <= n.name && n.name <= 65534 && n.begin == 0 && n.end == 0 && n.value == 0 && 1 <= n.item,
        2 => {
            let value_fits = match n.vkind {
                0 => n.value == 0,
                1 => true,
                2 => n.value >= 0,
                3 => n.value == 0,
                _ => false,
            };
            n.name == 0 && is_period(n.begin, n.end) && value_fits && n.item == 0
        }
        _ => false,
    }
}

fn parent_fits(nodes: &[Node], i: usize) -> bool {
    let n = &nodes[i];
    if i == 0 {
        return n.kind == 1 && n.parent == 65535;
    }
    let p = n.parent as usize;
    p < i && nodes[p].kind != n.kind
}

/// How many items stand on the way from the root to record i; the parents on the way are good.
fn depth(nodes: &[Node], i: usize) -> usize {
    let mut items = 0;
    let mut at = i;
    loop {
        if nodes[at].kind == 1 {
            items += 1;
        }
        if at == 0 {
            return items;
        }
        at = nodes[at].parent as usize;
    }
}

/// Record i, after good ones: 5, 6, 8.
fn record_fits(nodes: &[Node], i: usize) -> Result<(), Refusal> {
    if !fields_fit(&nodes[i]) {
        return Err((5, i));
    }
    if !parent_fits(nodes, i) {
        return Err((6, i));
    }
    if depth(nodes, i) > 8 {
        return Err((8, i));
    }
    Ok(())
}

/// The records of an image, record by record: 4, 5, 6, 8.
fn decoded(image: &[u8]) -> Result<Vec<Node>, Refusal> {
    let mut nodes: Vec<Node> = Vec::new();
    for (i, s) in records(image, &NODES)?.into_iter().enumerate() {
        if s[18] != 0 || s[19] != 0 {
            return Err((4, i));
        }
        nodes.push(node(s));
        record_fits(&nodes, i)?;
    }
    Ok(nodes)
}

/// Version v begins before a lower version of its item record ends, or leaves the period of the item's parent.
fn misplaced(bank: &Bank, v: usize) -> bool {
    let nodes = &bank.nodes;
    if nodes[v].kind != 2 {
        return false;
    }
    let item = nodes[v].parent as usize;
    if bank.under[item].iter().any(|u| *u < v && nodes[v].begin < nodes[*u].end) {
        return true;
    }
    if item == 0 {
        return false;
    }
    let holder = &nodes[nodes[item].parent as usize];
    nodes[v].begin < holder.begin || holder.end < nodes[v].end
}

fn share_day(a: &Node, b: &Node) -> bool {
    (a.begin..a.end).any(|d| b.begin <= d && d < b.end)
}

/// Some lower item has this item's number and another name, or versions that share a day with this item's.
fn clashes(bank: &Bank, i: usize) -> bool {
    let nodes = &bank.nodes;
    if nodes[i].kind != 1 {
        return false;
    }
    (0..i).filter(|j| nodes[*j].kind == 1 && nodes[*j].item == nodes[i].item).any(|j| {
        let share = |u: usize| bank.under[i].iter().any(|v| share_day(&nodes[u], &nodes[*v]));
        nodes[j].name != nodes[i].name || bank.under[j].iter().any(|u| share(*u))
    })
}

/// The bank of records that are good one by one, or 7, 9, 10.
fn bank_of(nodes: Vec<Node>) -> Result<Bank, Refusal> {
    let mut under = vec![Vec::new(); nodes.len()];
    for i in 1..nodes.len() {
        under[nodes[i].parent as usize].push(i);
    }
    let bank = Bank { nodes, under };
    if let Some(v) = (0..bank.nodes.len()).find(|v| misplaced(&bank, *v)) {
        return Err((7, v));
    }
    if let Some(i) = (0..bank.nodes.len()).find(|i| clashes(&bank, *i)) {
        return Err((9, i));
    }
    let roots = &bank.under[0];
    if roots.is_empty() || roots.windows(2).any(|w| bank.nodes[w[0]].end != bank.nodes[w[1]].begin) {
        return Err((10, 0));
    }
    Ok(bank)
}

/// The bank of a node image, or the first refusal of 1 to 10.
pub fn read_nodes(image: &[u8]) -> Result<Bank, Refusal> {
    bank_of(decoded(image)?)
}

/// The bank of records that come without an image, or the first refusal of 5 to 10.
pub fn read_records(nodes: Vec<Node>) -> Result<Bank, Refusal> {
    for i in 0..nodes.len() {
        record_fits(&nodes, i)?;
    }
    bank_of(nodes)
}
