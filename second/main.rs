//! The checker, the writer and the reader of selectors told a second time, from the documents alone: every day, every window and every byte by
//! their words, with no cleverness.
//!
//! usage: second FOLDER..              the report on the two images of each folder
//!        second --pairs FILE          the answers for each pair of a file of many pairs
//!        second --writes FILE         the answer for each case of a file of many cases of records, and the lent image after it
//!        second --selections FILE     the answer for each case of a file of many texts and dictionaries
use std::fs;
use std::process::exit;

mod days;
mod images;
mod months;
mod nodes;
mod pairs;
mod report;
mod rules;
mod selectors;
mod slices;
mod windows;
mod writes;
mod writing;

use report::{report, Reading};

fn over_folder(folder: &str, months: &[usize]) -> String {
    let nodes = match fs::read(format!("{}/nodes.blk", folder)) {
        Ok(bytes) => bytes,
        Err(_) => return String::from("unreadable nodes.blk\n"),
    };
    let rules = match fs::read(format!("{}/rules.blk", folder)) {
        Ok(bytes) => bytes,
        Err(_) => return String::from("unreadable rules.blk\n"),
    };
    report(&Reading::new(&nodes, &rules, months).verdicts())
}

fn main() {
    let words: Vec<String> = std::env::args().skip(1).collect();
    let months = months::month_starts();
    let done = match words.first().map(String::as_str) {
        Some("--pairs") if words.len() == 2 => pairs::over_pairs(&words[1], &months),
        Some("--writes") if words.len() == 2 => writes::over_cases(&words[1]),
        Some("--selections") if words.len() == 2 => selectors::over_cases(&words[1]),
        _ => {
            for folder in &words {
                print!("{}", over_folder(folder, &months));
            }
            Ok(())
        }
    };
    if let Err(error) = done {
        eprintln!("{}: {}", words[1], error);
        exit(1);
    }
}
