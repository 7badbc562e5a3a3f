//! The captures of examples/.

use std::fs;
use std::path::Path;

pub fn project() -> &'static Path {
    Path::new(concat!(env!("CARGO_MANIFEST_DIR"), "/../.."))
}

/// The name and the text of each capture.
pub fn captures() -> Vec<(String, String)> {
    let files = fs::read_dir(project().join("examples")).unwrap().map(|file| file.unwrap().path());
    let captures = files.filter(|file| file.extension().is_some_and(|end| end == "txt"));
    let mut named: Vec<_> =
        captures.map(|file| (file.file_stem().unwrap().to_str().unwrap().into(), fs::read_to_string(file).unwrap())).collect();
    named.sort();
    named
}

pub fn from_hex(digits: &str) -> Option<Vec<u8>> {
    (0..digits.len()).step_by(2).map(|i| u8::from_str_radix(digits.get(i..i + 2)?, 16).ok()).collect()
}

/// Of a line `ask=HHHH next=HHHH record=HEX` the asked id and the answer.
pub fn slot(line: &str) -> Option<(u16, Vec<u8>)> {
    let mut fields = line.split(' ').map(|field| field.split_once('=').map(|(_, value)| value));
    let ask = u16::from_str_radix(fields.next()??, 16).ok()?;
    let next = u16::from_str_radix(fields.next()??, 16).ok()?;
    Some((ask, [&next.to_le_bytes()[..], &from_hex(fields.next()??)?].concat()))
}
