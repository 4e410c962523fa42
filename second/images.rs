//! Images: numbers in bytes, blocks with their checks, and the records that the blocks hold.

/// A refusal: its number and its place.
pub type Refusal = (usize, usize);

pub fn u16_at(s: &[u8], at: usize) -> u16 {
    u16::from_le_bytes([s[at], s[at + 1]])
}

pub fn u32_at(s: &[u8], at: usize) -> u32 {
    u32::from_le_bytes([s[at], s[at + 1], s[at + 2], s[at + 3]])
}

pub fn i32_at(s: &[u8], at: usize) -> i32 {
    u32_at(s, at) as i32
}

/// What node images and rule images differ in: kind byte, record size, records a block, most blocks, what refusals add.
pub struct Form {
    pub kind: u8,
    pub size: usize,
    pub each: usize,
    pub most: usize,
    pub base: usize,
}

pub const NODES: Form = Form { kind: 1, size: 20, each: 25, most: 40, base: 0 };
pub const RULES: Form = Form { kind: 2, size: 50, each: 10, most: 10, base: 20 };

pub fn check(bytes: &[u8]) -> u32 {
    let mut check: u32 = 5381;
    for byte in bytes {
        check = check.wrapping_mul(33).wrapping_add(*byte as u32);
    }
    check
}

/// How many records block b holds, or its refusal: 2, then 3, then 4 after its last record.
fn count_in(block: &[u8], b: usize, last: bool, form: &Form) -> Result<usize, Refusal> {
    if u32_at(block, 508) != check(&block[0..508]) {
        return Err((form.base + 2, b));
    }
    let count = u16_at(block, 4) as usize;
    let count_good = if last { 1 <= count && count <= form.each } else { count == form.each };
    if u32_at(block, 0) as usize != b || !count_good || block[6] != form.kind || block[7] != 0 {
        return Err((form.base + 3, b));
    }
    if block[8 + count * form.size..508].iter().any(|x| *x != 0) {
        return Err((form.base + 4, b * form.each + count));
    }
    Ok(count)
}

/// The records of an image, or its refusal: 1, then block by block 2, 3, 4.
pub fn records<'a>(image: &'a [u8], form: &Form) -> Result<Vec<&'a [u8]>, Refusal> {
    if image.is_empty() || image.len() % 512 != 0 || image.len() / 512 > form.most {
        return Err((form.base + 1, 0));
    }
    let blocks = image.len() / 512;
    let mut all = Vec::new();
    for b in 0..blocks {
        let block = &image[b * 512..b * 512 + 512];
        for k in 0..count_in(block, b, b + 1 == blocks, form)? {
            all.push(&block[8 + k * form.size..8 + (k + 1) * form.size]);
        }
    }
    Ok(all)
}
