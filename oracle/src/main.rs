//! Answers questions about ipmi-rs-core: one a line on standard input, one
//! line of answer each, in the flat form. It only asks the original's public
//! functions, and sets two fields that none of them sets (app.rs of the
//! stand-ins), and writes down what they say.

mod kinds;
mod parts;

use std::io::{self, BufRead, Write};
use std::panic;
use std::str;

const MOST_DIGITS: usize = 132_400;

/// `None` where the question is none that can be asked.
fn answer(question: &str) -> Option<String> {
    let (kind, digits) = question.split_once(' ')?;
    let bytes = from_hex(digits)?;

    // A kind with a fixed number of bytes takes an array, and the conversion
    // to it turns away every other number.
    Some(match kind {
        "e" => kinds::entry(&bytes),
        "y" => kinds::entry_text(&bytes),
        "=" => kinds::same(bytes.try_into().ok()?),
        "g" => kinds::get_entry(&bytes),
        "i" => kinds::info(&bytes),
        "a" => kinds::allocation(&bytes),
        "r" => kinds::reserve(&bytes),
        "c" => kinds::clear(&bytes),
        "d" => kinds::event_data(bytes.try_into().ok()?),
        "v" => kinds::event_data_text(bytes.try_into().ok()?),
        "x" => kinds::event_text(bytes.try_into().ok()?),
        "t" => kinds::time_text(bytes.try_into().ok()?),
        "n" => kinds::record_id(bytes.try_into().ok()?),
        "q" => kinds::request(&bytes)?,
        "Q" => parts::request(bytes.try_into().ok()?),
        _ => return None,
    })
}

fn from_hex(digits: &str) -> Option<Vec<u8>> {
    let digit = |c: u8| match c {
        b'0'..=b'9' => Some(c - b'0'),
        b'A'..=b'F' => Some(c - b'A' + 10),
        _ => None,
    };

    if digits.len() % 2 != 0 || digits.len() > MOST_DIGITS {
        return None;
    }
    digits
        .as_bytes()
        .chunks(2)
        .map(|pair| Some(digit(pair[0])? << 4 | digit(pair[1])?))
        .collect()
}

fn main() -> io::Result<()> {
    // A panic is an answer here, its message only noise.
    panic::set_hook(Box::new(|_| ()));

    let mut input = io::stdin().lock();
    let mut output = io::BufWriter::new(io::stdout().lock());
    let mut line = Vec::new();
    while input.read_until(b'\n', &mut line)? > 0 {
        // A last line without newline is no question.
        let question = line
            .strip_suffix(b"\n")
            .and_then(|l| str::from_utf8(l).ok());
        let answered = match panic::catch_unwind(|| question.and_then(answer)) {
            Ok(Some(answer)) => answer,
            Ok(None) => "?".into(),
            Err(_) => "panic".into(),
        };
        writeln!(output, "{answered}")?;
        line.clear();
    }
    output.flush()
}
