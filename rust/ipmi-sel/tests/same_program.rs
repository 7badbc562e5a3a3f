//! One program, compiled over ipmi-rs-core and, with one `use` line more, over this crate. Both must say the same of the same bytes, and send
//! the same messages through the same session.

use std::fs;
use std::panic;

use dice::Dice;
use ipmi_rs_core::connection::{IpmiCommand, Message};
use ipmi_sel::parts::{reads, GetEntryPart, Joining};
use ipmi_sel::storage::sel::{GetSelEntry, RecordId, ReserveSel};
use logs::{captures, from_hex, project, slot};

mod dice;
mod logs;

mod original {
    include!("program/log.rs");
}

mod ours {
    // The one line.
    use ipmi_sel as ipmi_rs_core;
    include!("program/log.rs");
}

/// A session with a controller that holds a log. It takes whatever implements ipmi-rs-core's own trait, and keeps what was sent.
pub struct Session {
    /// Asked id and answer.
    answers: Vec<(u16, Vec<u8>)>,
    sent: Vec<Message>,
}

impl Session {
    fn new(answers: Vec<(u16, Vec<u8>)>) -> Self {
        Self { answers, sent: Vec::new() }
    }

    pub fn send_recv<C: IpmiCommand>(&mut self, command: C) -> Result<C::Output, C::Error> {
        let message: Message = command.into();
        let answer = match message.cmd() {
            0x40 => vec![0x51, self.answers.len() as u8, 0, 0xF0, 0x3F, 0xE8, 0x03, 0, 0, 0, 0, 0, 0, 0x0B],
            0x41 => vec![0x00, 0x04, 0x14, 0x00, 0x80, 0x00, 0x60, 0x00, 0x01],
            0x42 => vec![0x34, 0x12],
            0x43 => self.part(message.data()),
            _ => vec![u8::from(message.data()[5] == 0)],
        };
        self.sent.push(message);
        C::parse_success_response(&answer)
    }

    fn answer(&self, id: u16) -> &[u8] {
        self.answers.iter().find(|(asked, _)| *asked == id).map_or(&[], |(_, answer)| answer)
    }

    /// The next id, and of the record what is asked for; FFh bytes are all.
    fn part(&self, request: &[u8]) -> Vec<u8> {
        let whole = self.answer(u16::from_le_bytes([request[2], request[3]]));
        match (request[4], request[5]) {
            (0, 0xFF) => whole.to_vec(),
            (offset, count) => [&whole[..2], &whole[2..][offset.into()..][..count.into()]].concat(),
        }
    }

    /// The id that a record's answer names, also where the record cannot be read.
    pub fn next_of(&self, id: u16) -> Option<u16> {
        self.answer(id).get(..2).map(|next| u16::from_le_bytes([next[0], next[1]]))
    }
}

#[test]
fn the_logs_of_the_examples() {
    let mut records = 0;
    for (name, text) in captures() {
        // A line that is none is no answer.
        let log: Vec<_> = text.lines().filter_map(slot).collect();
        let mut sessions = [Session::new(log.clone()), Session::new(log)];
        assert_eq!(original::read_log(&mut sessions[0]), ours::read_log(&mut sessions[1]), "{name}");
        assert_eq!(sessions[0].sent, sessions[1].sent, "{name}");
        records += sessions[0].sent.iter().filter(|message| message.cmd() == 0x43).count();
    }
    println!("{records} records were asked for");
    assert!(records > 20);
}

/// The same records by parts, through the same session.
#[test]
fn the_logs_of_the_examples_by_parts() {
    let mut records = 0;
    for (name, text) in captures() {
        let mut session = Session::new(text.lines().filter_map(slot).collect());
        for ask in session.answers.iter().map(|(ask, _)| *ask).collect::<Vec<_>>() {
            let id = RecordId::new(ask).unwrap_or(RecordId::FIRST);
            let reservation = session.send_recv(ReserveSel).ok();
            for m in [1, 3, 4, 8, 15, 16, 255] {
                let mut joining = Joining::new(m);
                for read in reads(m).unwrap() {
                    let answer = session.send_recv(GetEntryPart::new(reservation, id, read).unwrap()).unwrap();
                    joining.take(&answer).unwrap();
                }
                assert_eq!(joining.answer().unwrap(), session.answer(id.value()), "{name}");
                assert_eq!(session.send_recv(GetSelEntry::new(None, id)), GetSelEntry::parse_success_response(&joining.answer().unwrap()));
                records += 1;
            }
        }
    }
    println!("{records} records were joined");
    assert!(records > 300);
}

// ---- questions

/// The bytes of all questions of the program `replay`, whatever they are asked as there.
fn asked_of_replay() -> Vec<Vec<u8>> {
    let lines = fs::read(project().join("crates/replay/stdin")).unwrap();
    let bytes_of = |line: &[u8]| from_hex(std::str::from_utf8(line).ok()?.split_once(' ')?.1);
    let mut bytes: Vec<_> = lines.split(|byte| *byte == b'\n').filter_map(bytes_of).filter(|bytes| bytes.len() <= 1000).collect();
    bytes.sort();
    bytes.dedup();
    bytes
}

fn random_answers(count: usize) -> impl Iterator<Item = Vec<u8>> {
    let mut dice = Dice::new(1);
    (0..count).map(move |_| {
        let length = [2, 9, 14, 16, 18, dice.below(32)][dice.below(6)];
        dice.answer(length).into_vec()
    })
}

fn questions() -> Vec<Vec<u8>> {
    let mut questions = asked_of_replay();
    questions.extend(random_answers(30_000));
    questions
}

/// What is to be said of an allocation answer. At 8 bytes the original panics, reading a ninth; there docs/SCOPE.md decides, by which 8 are
/// refused as 7 are.
fn expected_allocation(bytes: &[u8]) -> String {
    let original_says = |bytes: &[u8]| {
        let mut out = String::new();
        original::allocation(bytes, &mut out);
        out
    };
    match panic::catch_unwind(|| original_says(bytes)) {
        Ok(said) => said,
        Err(_) => {
            assert_eq!(bytes.len(), PANICS);
            original_says(&bytes[..7])
        }
    }
}

const PANICS: usize = 8;

/// The finer refusals: each where the original errs and nowhere else, and mapped back its error. Of an allocation answer of 8 bytes the original has none.
fn compare_refusals(bytes: &[u8]) -> usize {
    use ipmi_rs_core::storage::sel as original;
    use ipmi_sel::capture::{refusal, AnswerKind::*};
    let mapped = |kind| refusal(kind, bytes).map(|why| format!("{:?}", ipmi_sel::storage::sel::ParseEntryError::from(why)));
    fn error<T, E: std::fmt::Debug>(said: Result<T, E>) -> Option<String> {
        said.err().map(|why| format!("{why:?}"))
    }
    assert_eq!(mapped(Entry), error(original::Entry::parse(bytes)), "{bytes:02X?}");
    assert_eq!(mapped(GetEntry), error(original::GetSelEntry::parse_success_response(bytes)), "{bytes:02X?}");
    assert_eq!(mapped(Info), error(original::GetSelInfo::parse_success_response(bytes)), "{bytes:02X?}");
    assert_eq!(mapped(Reserve), error(original::ReserveSel::parse_success_response(bytes)), "{bytes:02X?}");
    assert_eq!(mapped(Clear), error(original::ClearSel::parse_success_response(bytes)), "{bytes:02X?}");
    if bytes.len() != PANICS {
        assert_eq!(mapped(Allocation), error(original::SelGetAllocInfo::parse_success_response(bytes)), "{bytes:02X?}");
    }
    [Entry, GetEntry, Info, Reserve, Clear, Allocation].into_iter().filter(|kind| refusal(*kind, bytes).is_some()).count()
}

#[test]
fn answers() {
    let (mut compared, mut panics, mut refused) = (0, 0, 0);
    for bytes in questions() {
        let (mut expected, mut said) = (String::new(), String::new());
        original::answers(&bytes, &mut expected);
        expected += &expected_allocation(&bytes);
        ours::answers(&bytes, &mut said);
        ours::allocation(&bytes, &mut said);
        assert_eq!(expected, said, "{bytes:02X?}");
        refused += compare_refusals(&bytes);
        compared += 1;
        panics += usize::from(bytes.len() == PANICS);
    }
    println!("{compared} answers, {refused} refusals of them; as allocations {panics} of them panic in the original");
    assert!(compared > 40_000 && panics > 0 && refused > 40_000);
}

/// Of the pairs that `replay` is asked about, and of each of these records beside the one before it.
#[test]
fn equal_entries() {
    let pairs: Vec<_> = asked_of_replay().into_iter().filter(|bytes| bytes.len() == 32).collect();
    let beside = pairs.windows(2).map(|two| [&two[0][16..], &two[1][16..]].concat());
    let mut equal = 0;
    for pair in pairs.iter().cloned().chain(beside) {
        let (one, other) = pair.split_at(16);
        let expected = original::equal(one, other);
        assert_eq!(ours::equal(one, other), expected, "{pair:02X?}");
        assert_eq!(ipmi_sel::capture::same_entry(one, other).ok(), expected, "{pair:02X?}");
        equal += usize::from(one != other && expected == Some(true));
    }
    println!("{} pairs, of which {equal} differ and are equal entries", 2 * pairs.len() - 1);
    assert!(pairs.len() > 4000 && equal > 300);
}

/// What is written of a record's entry is the record itself. Made from the fields alone, it is a record of the same
/// entry to the original, too.
#[test]
fn written_records() {
    let (mut written, mut others) = (0, 0);
    for bytes in questions() {
        let Ok(entry) = ipmi_sel::storage::sel::Entry::parse(&bytes) else { continue };
        assert_eq!(entry.to_bytes().unwrap(), bytes[..16], "{bytes:02X?}");
        let record = entry.clone().remade().to_bytes().unwrap();
        assert_eq!(original::equal(&record, &bytes), Some(true), "{bytes:02X?}");
        let parsed = ipmi_rs_core::storage::sel::Entry::parse(&record).unwrap();
        assert_eq!(format!("{parsed:?}"), format!("{entry:?}"), "{bytes:02X?}");
        written += 1;
        others += usize::from(record != bytes[..16]);
    }
    println!("{written} records were written; made from their fields, {others} of them are others");
    assert!(written > 10_000 && others > 1000);
}

#[test]
fn fields() {
    let mut compared = 0;
    for bytes in questions() {
        let bytes = [0, 1, 2, 3].map(|place| bytes.get(place).copied().unwrap_or(0));
        let (mut expected, mut said) = (String::new(), String::new());
        original::fields(&bytes, &mut expected);
        ours::fields(&bytes, &mut said);
        assert_eq!(expected, said, "{bytes:02X?}");
        compared += 1;
    }
    println!("{compared} times four bytes");
    assert!(compared > 40_000);
}

#[test]
fn every_event_text() {
    // Bit 7 of the event type, and the offset's bits 7 to 4, do not count: docs/SCOPE.md.
    for event_type in (0x00..=0x0E).chain([0x6E, 0x6F, 0x70, 0x7F, 0x81, 0xEF]) {
        for sensor_type in 0..=u8::MAX {
            for offset in 0..=16 {
                let text = |show: fn(&[u8; 3]) -> String| show(&[event_type, sensor_type, offset]);
                assert_eq!(text(original::event_text), text(ours::event_text), "{event_type:02X} {sensor_type:02X} {offset}");
            }
        }
    }
}

#[test]
fn names() {
    let (mut expected, mut said) = (String::new(), String::new());
    original::names(&mut expected);
    ours::names(&mut said);
    assert_eq!(expected, said);
}

#[test]
fn channels_and_units_become_the_originals() {
    use ipmi_rs_core::connection::{Channel, LogicalUnit};
    for number in 0..=u8::MAX {
        assert_eq!(ipmi_sel::connection::Channel::new(number).map(Channel::from), Channel::new(number));
        let unit = ipmi_sel::connection::LogicalUnit::from_low_bits(number);
        assert_eq!(LogicalUnit::from(unit), LogicalUnit::from_low_bits(number));
        assert_eq!(ipmi_sel::connection::LogicalUnit::try_from(number).map(LogicalUnit::from), LogicalUnit::try_from(number));
    }
}
