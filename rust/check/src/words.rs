//! The encodings in files of worked rows.

use std::string::String;
use std::vec::Vec;

fn octets(word: &str) -> Option<Vec<u8>> {
    let pairs = (0..word.len() / 2).map(|at| word.get(2 * at..2 * at + 2));
    pairs.map(|pair| u8::from_str_radix(pair?, 16).ok()).collect()
}

/// Each word of hexadecimal digits in the files that is an encoding of five octets or more, but of less than 3000.
pub fn encodings(files: impl Iterator<Item = String>) -> std::io::Result<Vec<Vec<u8>>> {
    let mut found = Vec::new();
    for file in files {
        let text = std::fs::read_to_string(file)?;
        let words = text.split(|c: char| !c.is_ascii_hexdigit());
        found.extend(words.filter(|word| word.len() % 2 == 0 && (10..6000).contains(&word.len())).filter_map(octets));
    }
    found.sort();
    found.dedup();
    Ok(found)
}
