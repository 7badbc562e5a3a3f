//! The questions that the program `replay` is asked, and its answers.

use std::fs;

use ipmi_sel::storage::sel::RecordId;

use crate::logs::{from_hex, project};

/// The bytes of each question with this letter that has an answer, and its answer; with any other bytes the answer is `?`.
pub fn asked(letter: u8) -> Vec<(Vec<u8>, String)> {
    let lines = |name: &str| fs::read(project().join("crates/replay").join(name)).unwrap();
    let (questions, answers) = (lines("stdin"), lines("stdout"));
    let pairs = questions.split(|byte| *byte == b'\n').zip(answers.split(|byte| *byte == b'\n'));
    let answered = pairs.filter(|(question, answer)| question.starts_with(&[letter, b' ']) && *answer != b"?");
    let text = |line: &[u8]| String::from_utf8(line.to_vec()).unwrap();
    answered.map(|(question, answer)| (from_hex(&text(&question[2..])).unwrap(), text(answer))).collect()
}

/// An accepted answer, as `replay` writes it.
pub fn accepted(bytes: impl IntoIterator<Item = u8>) -> String {
    let digits: String = bytes.into_iter().map(|byte| format!("{byte:02X}")).collect();
    format!("0 {digits}").trim_end().into()
}

/// An id as it stands in a question, which may be any.
pub fn record_id(id: u16) -> RecordId {
    RecordId::new(id).unwrap_or(if id == 0 { RecordId::FIRST } else { RecordId::LAST })
}
