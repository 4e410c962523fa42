//! The file of many cases of records: each is written to a lent image by itself, and the answer and the image after it are printed.
use crate::images::{i32_at, u16_at, u32_at};
use crate::pairs::taken;
use crate::writing::{write_nodes, Lent, FRESH};
use std::fs::File;
use std::io::{self, BufReader, BufWriter, Read, Write};

/// The most bytes of a lent image and the most entries of a column.
const ROOM_MOST: usize = 22016;
const COLUMN_MOST: usize = 1025;

/// Bytes of the image in a line.
const ROW: usize = 32;

/// A column of so many entries, each of so many bytes, or none if the file ends before or the column is too long.
fn column<T>(file: &mut dyn Read, length: usize, size: usize, entry: fn(&[u8], usize) -> T) -> Option<Vec<T>> {
    if length > COLUMN_MOST {
        return None;
    }
    let bytes = taken(file, length * size)?;
    Some((0..length).map(|i| entry(&bytes, i * size)).collect())
}

fn u8_at(s: &[u8], at: usize) -> u8 {
    s[at]
}

/// Count, lent image and columns of the next case; none if the file ends before, or a length is more than a case has.
fn next_case(file: &mut dyn Read) -> Option<(usize, Vec<u8>, Lent)> {
    let header = taken(file, 40)?;
    let number = |k: usize| u32_at(&header, 4 * k) as usize;
    let (count, room) = (number(0), number(1));
    let lent = Lent {
        kind: column(file, number(2), 1, u8_at)?,
        vkind: column(file, number(3), 1, u8_at)?,
        name: column(file, number(4), 2, u16_at)?,
        parent: column(file, number(5), 2, u16_at)?,
        begin: column(file, number(6), 2, u16_at)?,
        end: column(file, number(7), 2, u16_at)?,
        value: column(file, number(8), 4, i32_at)?,
        item: column(file, number(9), 4, u32_at)?,
    };
    if room > ROOM_MOST {
        return None;
    }
    Some((count, vec![FRESH; room], lent))
}

/// An image in lines of hexadecimal digits.
fn digits(image: &[u8]) -> String {
    let mut out = String::new();
    for row in image.chunks(ROW) {
        for byte in row {
            out += &format!("{:02x}", byte);
        }
        out += "\n";
    }
    out
}

/// Prints the answer for each case of the file, until it ends.
pub fn over_cases(path: &str) -> io::Result<()> {
    let mut file = BufReader::new(File::open(path)?);
    let mut out = BufWriter::new(io::stdout());
    let mut number = 0;
    while let Some((count, mut image, lent)) = next_case(&mut file) {
        let answer = match write_nodes(count, &lent, &mut image) {
            Ok(size) => format!("written {}", size),
            Err((refusal, place)) => format!("refused {} {}", refusal, place),
        };
        write!(out, "case {}\n{}\n{}", number, answer, digits(&image))?;
        number += 1;
    }
    out.flush()
}
