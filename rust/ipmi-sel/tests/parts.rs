//! The records of the logs of examples/, read by parts: joined, they are the answers as they were captured. And the questions that the program
//! `replay` is asked, whose answers must be those of this crate. A line of crates/replay/stdin is a letter and bytes: R, how many bytes come at most
//! at once; Q, the room, reservation, id, offset and count; J, how many come at most at once, and answers, each behind its length.

use std::num::NonZeroU16;

use ipmi_sel::parts::{reads, GetEntryPart, Joining, Part, PartError};
use ipmi_sel::storage::sel::GetSelEntry;
use ipmi_sel::Request;
use logs::{captures, slot};
use replay::{accepted, asked, record_id};

mod logs;
mod replay;

/// A controller that gives parts of the record of this whole answer.
fn answer(whole: &[u8], request: Request) -> Vec<u8> {
    let [_, _, _, _, offset, count] = request.payload()[..] else { panic!("{request:?}") };
    [&whole[..2], &whole[2..][offset.into()..][..count.into()]].concat()
}

#[test]
fn logs_of_the_examples() {
    let mut joined = 0;
    for (name, text) in captures() {
        for (ask, whole) in text.lines().filter_map(slot) {
            for m in 1..=255 {
                let mut joining = Joining::new(m);
                for read in reads(m).unwrap() {
                    let request = GetEntryPart::new(NonZeroU16::new(0x1234), record_id(ask), read).unwrap().request();
                    joining.take(&answer(&whole, request)).unwrap();
                }
                let answer = joining.answer().unwrap();
                assert_eq!(answer[..], whole, "{name}");
                assert_eq!(GetSelEntry::parse_success_response(&answer), GetSelEntry::parse_success_response(&whole), "{name}");
                joined += 1;
            }
        }
    }
    println!("{joined} records were joined");
    assert!(joined > 50 * 255);
}

fn refused(why: PartError) -> String {
    why.number().to_string()
}

#[test]
fn lists_of_reads() {
    let questions = asked(b'R');
    for (bytes, answer) in &questions {
        let listed = reads(bytes[0]).map(|reads| accepted(reads.iter().flat_map(|read| [read.offset, read.bytes_to_read])));
        assert_eq!(&listed.unwrap_or_else(refused), answer, "{bytes:02X?}");
    }
    println!("{} lists of reads", questions.len());
    assert!(questions.len() >= 256);
}

#[test]
fn requests() {
    let (questions, mut made, mut no_room) = (asked(b'Q'), 0, 0);
    for (bytes, answer) in &questions {
        let [room, low, high, id_low, id_high, offset, bytes_to_read] = bytes[..] else { panic!("{bytes:02X?}") };
        let (reservation, id) = (NonZeroU16::new(u16::from_le_bytes([low, high])), record_id(u16::from_le_bytes([id_low, id_high])));
        let said = match GetEntryPart::new(reservation, id, Part { offset, bytes_to_read }) {
            // This crate has the room; it is asked for last.
            Ok(_) if room < 6 => "4 0006".into(),
            Ok(part) => accepted(part.request().payload().iter().copied()),
            Err(why) => refused(why),
        };
        assert_eq!(&said, answer, "{bytes:02X?}");
        made += usize::from(said.starts_with("0 "));
        no_room += usize::from(said.starts_with("4 "));
    }
    println!("{} requests, {made} of them made, and {no_room} without room", questions.len());
    assert!(made > 100 && made + no_room + 100 < questions.len());
}

#[test]
fn joinings() {
    let (questions, mut answers, mut whole) = (asked(b'J'), 0, 0);
    for (bytes, answer) in &questions {
        let (mut joining, mut rest, mut said) = (Joining::new(bytes[0]), &bytes[1..], vec![]);
        if bytes[0] == 0 {
            assert_eq!((&refused(joining.take(rest).unwrap_err()), &refused(PartError::NoBytes)), (answer, answer));
            continue;
        }
        while let [length, behind @ ..] = rest {
            let (one, others) = behind.split_at((*length).into());
            said.push(joining.take(one).map_or_else(|why| why.number() as u8, |()| 0));
            rest = others;
            answers += 1;
        }
        whole += usize::from(joining.answer().is_some());
        assert_eq!(&accepted(said.into_iter().chain(joining.answer().into_iter().flatten())), answer, "{bytes:02X?}");
    }
    println!("{} joinings of {answers} answers, {whole} of them to a record", questions.len());
    assert!(whole > 100 && whole + 100 < questions.len());
}
