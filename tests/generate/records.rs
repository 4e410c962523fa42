//! Records and images: nodes and rules with every field free, and the blocks that hold their bytes.

#[derive(Clone, Default)]
pub struct Node {
    pub kind: u8,
    pub vkind: u8,
    pub name: u16,
    pub parent: u16,
    pub begin: u16,
    pub end: u16,
    pub value: i32,
    pub item: u32,
    pub tail: u16,
}

#[derive(Clone, Default)]
pub struct Rule {
    pub kind: u8,
    pub mode: u8,
    pub path: [u16; 8],
    pub steps: u8,
    pub distinct: u8,
    pub field: u16,
    pub referred: u16,
    pub min: i32,
    pub max: i32,
    pub begin: u16,
    pub end: u16,
    pub length: u16,
    pub unit: u8,
    pub gap: u8,
    pub slide: u16,
    pub tail: [u8; 8],
}

/// A bank and its rules, not yet in blocks.
pub struct Pair {
    pub nodes: Vec<Node>,
    pub rules: Vec<Rule>,
}

/// The node image and the rule image.
pub struct Images {
    pub nodes: Vec<u8>,
    pub rules: Vec<u8>,
}

impl Node {
    fn bytes(&self) -> Vec<u8> {
        let mut out = vec![self.kind, self.vkind];
        for x in [self.name, self.parent, self.begin, self.end] {
            out.extend(x.to_le_bytes());
        }
        out.extend(self.value.to_le_bytes());
        out.extend(self.item.to_le_bytes());
        out.extend(self.tail.to_le_bytes());
        out
    }
}

impl Rule {
    fn bytes(&self) -> Vec<u8> {
        let mut out = vec![self.kind, self.mode];
        for name in self.path {
            out.extend(name.to_le_bytes());
        }
        out.extend([self.steps, self.distinct]);
        out.extend(self.field.to_le_bytes());
        out.extend(self.referred.to_le_bytes());
        out.extend(self.min.to_le_bytes());
        out.extend(self.max.to_le_bytes());
        for x in [self.begin, self.end, self.length] {
            out.extend(x.to_le_bytes());
        }
        out.extend([self.unit, self.gap]);
        out.extend(self.slide.to_le_bytes());
        out.extend(self.tail);
        out
    }
}

impl Pair {
    pub fn images(&self) -> Images {
        let nodes: Vec<Vec<u8>> = self.nodes.iter().map(|n| n.bytes()).collect();
        let rules: Vec<Vec<u8>> = self.rules.iter().map(|r| r.bytes()).collect();
        Images { nodes: image(&nodes, 25, 1), rules: image(&rules, 10, 2) }
    }
}

/// Records in blocks of 512 bytes, each with its number, count, kind and check.
fn image(records: &[Vec<u8>], each: usize, kind: u8) -> Vec<u8> {
    let mut out = Vec::new();
    for (b, part) in records.chunks(each).enumerate() {
        out.extend((b as u32).to_le_bytes());
        out.extend((part.len() as u16).to_le_bytes());
        out.extend([kind, 0]);
        out.extend(part.iter().flatten());
        out.resize(b * 512 + 512, 0);
        mend(&mut out, b);
    }
    out
}

/// Makes the check of block b right.
pub fn mend(image: &mut [u8], b: usize) {
    let block = &mut image[b * 512..b * 512 + 512];
    let check = block[..508].iter().fold(5381u32, |sum, byte| sum.wrapping_mul(33).wrapping_add(*byte as u32));
    block[508..].copy_from_slice(&check.to_le_bytes());
}
