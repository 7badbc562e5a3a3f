//! The records of the logs of examples/, sent as messages: those of the system, made again of their messages, are as they were. And the questions
//! that the program `replay` is asked, whose answers must be those of this crate. A line of crates/replay/stdin is a letter and bytes: P, the room,
//! id, time and generator, and a message; O, the room and a record.

use ipmi_sel::capture::record_bytes;
use ipmi_sel::events::{record_of, Beside, EventError, EventMessage};
use ipmi_sel::storage::sel::{Entry, ParseEntryError};
use ipmi_sel::storage::Timestamp;
use logs::{captures, slot};
use replay::{accepted, asked, record_id};

mod logs;
mod replay;

/// Id, time and generator, in a record's order.
fn beside(&[id1, id2, time1, time2, time3, time4, generator1, generator2]: &[u8; 8]) -> Beside {
    Beside {
        record_id: record_id(u16::from_le_bytes([id1, id2])),
        timestamp: Timestamp::from(u32::from_le_bytes([time1, time2, time3, time4])),
        generator: [generator1, generator2],
    }
}

#[test]
fn logs_of_the_examples() {
    let (mut sent, mut others) = (0, 0);
    for (name, text) in captures() {
        for (_, answer) in text.lines().filter_map(slot) {
            let record: &[u8; 16] = record_bytes(&answer).try_into().unwrap();
            let Ok(message) = EventMessage::from_record(record) else {
                assert_eq!(EventMessage::from_record(record), Err(EventError::NoSystemRecord(record[2])), "{name}");
                others += 1;
                continue;
            };
            assert_eq!((record[2], &message.0[..]), (0x02, &record[9..]), "{name}");
            let made = message.to_record(beside(&[0, 1, 3, 4, 5, 6, 7, 8].map(|place| record[place])));
            match Entry::parse(record) {
                Err(ParseEntryError::InvalidChannel(channel)) => assert_eq!(made, Err(EventError::InvalidChannel(channel)), "{name}"),
                _ => assert_eq!(made, Ok(*record), "{name}"),
            }
            sent += 1;
        }
    }
    println!("{sent} records were sent, and {others} are none of the system");
    assert!(sent > 50 && others > 5);
}

/// A refusal, as `replay` writes it.
fn refused(why: EventError) -> String {
    let number = why.number();
    match why {
        EventError::TooShort { needed } => format!("{number} {needed:04X}"),
        EventError::NoSystemRecord(carried) | EventError::InvalidChannel(carried) => format!("{number} {carried:02X}"),
        EventError::TooLong => number.to_string(),
    }
}

/// What is said in so much room of what has so many bytes: this crate has the room; it is asked for last.
fn said<const N: usize>(room: u16, written: Result<[u8; N], EventError>) -> String {
    match written {
        Ok(_) if usize::from(room) < N => format!("4 {N:04X}"),
        Ok(bytes) => accepted(bytes),
        Err(why) => refused(why),
    }
}

/// How many of these answers begin with each number.
fn counted(questions: &[(Vec<u8>, String)]) -> [usize; 9] {
    let mut counts = [0; 9];
    for (_, answer) in questions {
        counts[usize::from(answer.as_bytes()[0] - b'0')] += 1;
    }
    counts
}

#[test]
fn messages_made_records() {
    let questions = asked(b'P');
    for (bytes, answer) in &questions {
        let (room, behind) = bytes.split_at(2);
        let (given, message) = behind.split_at(8);
        let made = record_of(message, beside(given.try_into().unwrap()));
        assert_eq!(&said(u16::from_le_bytes([room[0], room[1]]), made), answer, "{bytes:02X?}");
        if let Ok(message) = message.try_into() {
            assert_eq!(EventMessage(message).to_record(beside(given.try_into().unwrap())), made, "{bytes:02X?}");
        }
    }
    let [made, short, _, channel, room, _, _, _, long] = counted(&questions);
    println!(
        "{} messages, {made} made a record; {short} too short, {long} too long, {channel} on no channel, {room} without room",
        questions.len()
    );
    assert!(made > 100 && [short, long, channel, room].iter().all(|count| *count > 5));
}

#[test]
fn records_sent_as_messages() {
    let questions = asked(b'O');
    for (bytes, answer) in &questions {
        let (room, record) = bytes.split_at(2);
        let sent = EventMessage::from_record(record).map(|message| message.0);
        assert_eq!(&said(u16::from_le_bytes([room[0], room[1]]), sent), answer, "{bytes:02X?}");
    }
    let [sent, short, kind, _, room, ..] = counted(&questions);
    println!("{} records, {sent} sent as a message; {short} too short, {kind} of another type, {room} without room", questions.len());
    assert!(sent > 100 && [short, kind, room].iter().all(|count| *count > 5));
}
