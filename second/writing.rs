//! Writing: records to a node image, whole blocks by document 01's tables, with the refusals of request 1 of document 02.
use crate::images::{check, Refusal, NODES};
use crate::nodes::{read_records, Node};

/// Each byte of a lent image before it is written.
pub const FRESH: u8 = 165;

/// Records as they are lent: a column for each field.
pub struct Lent {
    pub kind: Vec<u8>,
    pub vkind: Vec<u8>,
    pub name: Vec<u16>,
    pub parent: Vec<u16>,
    pub begin: Vec<u16>,
    pub end: Vec<u16>,
    pub value: Vec<i32>,
    pub item: Vec<u32>,
}

impl Lent {
    /// The columns of records.
    pub fn of(nodes: &[Node]) -> Lent {
        Lent {
            kind: nodes.iter().map(|n| n.kind).collect(),
            vkind: nodes.iter().map(|n| n.vkind).collect(),
            name: nodes.iter().map(|n| n.name).collect(),
            parent: nodes.iter().map(|n| n.parent).collect(),
            begin: nodes.iter().map(|n| n.begin).collect(),
            end: nodes.iter().map(|n| n.end).collect(),
            value: nodes.iter().map(|n| n.value).collect(),
            item: nodes.iter().map(|n| n.item).collect(),
        }
    }

    /// Whether some column has fewer entries than this.
    fn shorter_than(&self, count: usize) -> bool {
        let first = [self.kind.len(), self.vkind.len(), self.name.len(), self.parent.len()];
        let last = [self.begin.len(), self.end.len(), self.value.len(), self.item.len()];
        first.iter().chain(&last).any(|length| *length < count)
    }

    /// Record i of the columns.
    fn node(&self, i: usize) -> Node {
        Node {
            kind: self.kind[i],
            vkind: self.vkind[i],
            name: self.name[i],
            parent: self.parent[i],
            begin: self.begin[i],
            end: self.end[i],
            value: self.value[i],
            item: self.item[i],
        }
    }
}

/// The 20 bytes of a record.
fn record(n: &Node) -> Vec<u8> {
    let mut bytes = vec![n.kind, n.vkind];
    bytes.extend(n.name.to_le_bytes());
    bytes.extend(n.parent.to_le_bytes());
    bytes.extend(n.begin.to_le_bytes());
    bytes.extend(n.end.to_le_bytes());
    bytes.extend(n.value.to_le_bytes());
    bytes.extend(n.item.to_le_bytes());
    bytes.extend([0, 0]);
    bytes
}

/// Block b with these records.
fn block(b: usize, nodes: &[Node]) -> Vec<u8> {
    let mut bytes = Vec::new();
    bytes.extend((b as u32).to_le_bytes());
    bytes.extend((nodes.len() as u16).to_le_bytes());
    bytes.extend([NODES.kind, 0]);
    for n in nodes {
        bytes.extend(record(n));
    }
    bytes.resize(508, 0);
    let sum = check(&bytes);
    bytes.extend(sum.to_le_bytes());
    bytes
}

/// All blocks of the records: each but the last is full.
fn blocks(nodes: &[Node]) -> Vec<u8> {
    nodes.chunks(NODES.each).enumerate().flat_map(|(b, part)| block(b, part)).collect()
}

/// Writes the first `count` records to the front of the lent image and tells how many bytes that took. 1 for no record or too many; 12 for a
/// short column; what the reader would refuse the records with, from 5 on; 12 for a short image. A refusal stores nothing.
pub fn write_nodes(count: usize, lent: &Lent, image: &mut [u8]) -> Result<usize, Refusal> {
    if count == 0 || count > NODES.each * NODES.most {
        return Err((1, 0));
    }
    if lent.shorter_than(count) {
        return Err((12, 0));
    }
    let bank = read_records((0..count).map(|i| lent.node(i)).collect())?;
    let bytes = blocks(&bank.nodes);
    if image.len() < bytes.len() {
        return Err((12, 0));
    }
    image[..bytes.len()].copy_from_slice(&bytes);
    Ok(bytes.len())
}
