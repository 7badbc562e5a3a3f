//! The index of slots that stand elsewhere in the project: of the logs of examples/, and of the questions that the program `replay` is asked,
//! whose answers must be those of this crate. A line of crates/replay/stdin is a letter and bytes: I, slots; F, an id, an index and slots; X, a
//! budget, how many places are lent, an index and slots. An index is its count and its numbers.

use ipmi_sel::capture::{
    add_to_index, check_index, find, find_indexed, index_of, walk, walk_indexed, IndexError, Verdict, Walk, WalkError,
};
use logs::{captures, slot};
use replay::{asked, record_id};

mod logs;
mod replay;

/// Captured slot by slot, with the index kept beside: by it each log is walked, and each id found, as without.
#[test]
fn logs_of_the_examples() {
    let mut looked_up = 0;
    for (name, text) in captures() {
        let (mut slots, mut index) = (vec![], vec![]);
        let log: Vec<_> = text.lines().filter_map(slot).collect();
        for (ask, answer) in &log {
            slots.extend([&ask.to_le_bytes()[..], answer].concat());
            assert_eq!(add_to_index(&slots, &mut index), Ok(()), "{name}");
        }
        let mut sorted: Vec<_> = (0..log.len() as u16).collect();
        sorted.sort_by_key(|number| log[usize::from(*number)].0);
        assert_eq!((index_of(&slots).as_ref(), &index), (Ok(&sorted), &sorted), "{name}");

        let mut lists = [(); 2].map(|()| vec![0xEEEE; log.len()]);
        let budget = log.len() + 1;
        assert_eq!(walk_indexed(&slots, &index, budget, &mut lists[0]), walk(&slots, budget, &mut lists[1]), "{name}");
        assert_eq!(lists[0], lists[1], "{name}");
        for id in log.iter().flat_map(|(ask, _)| [*ask, ask.wrapping_add(1)]) {
            let first = log.iter().position(|(ask, _)| *ask == id);
            assert_eq!((find_indexed(&slots, &index, record_id(id)), find(&slots, record_id(id))), (first, first), "{name}");
            looked_up += 1;
        }
    }
    println!("{looked_up} ids were looked up");
    assert!(looked_up > 100);
}

fn number(bytes: &mut &[u8]) -> u16 {
    let (number, rest) = bytes.split_at(2);
    *bytes = rest;
    u16::from_le_bytes([number[0], number[1]])
}

fn index(bytes: &mut &[u8]) -> Box<[u16]> {
    (0..number(bytes)).map(|_| number(bytes)).collect()
}

/// An accepted answer: each number from its lower byte on.
fn accepted(numbers: impl IntoIterator<Item = u16>) -> String {
    replay::accepted(numbers.into_iter().flat_map(u16::to_le_bytes))
}

#[test]
fn indexes() {
    let questions = asked(b'I');
    for (slots, answer) in &questions {
        let said = match index_of(slots) {
            Ok(index) => accepted(index),
            Err(why) => why.number().to_string(),
        };
        assert_eq!(&said, answer, "{slots:02X?}");
    }
    println!("{} indexes", questions.len());
    assert!(questions.len() > 200);
}

#[test]
fn finds() {
    let (questions, mut right, mut named) = (asked(b'F'), 0, 0);
    for (bytes, answer) in &questions {
        let rest = &mut &bytes[..];
        let (id, index) = (record_id(number(rest)), index(rest));
        let found = find_indexed(rest, &index, id);
        assert_eq!(&accepted(found.map(|slot| slot as u16)), answer, "{bytes:02X?}");
        right += usize::from(check_index(rest, &index).is_ok());
        named += usize::from(found.is_some());
    }
    println!("{} lookups, {right} of them with the right index, and {named} that name a slot", questions.len());
    assert!(right > 100 && right + 100 < questions.len() && named > 100);
}

/// The verdict's number, what it asks for, how many slots were read, and the whole list.
fn walked(Walk { verdict, read }: Walk, list: &[u16]) -> String {
    let (verdict, ask) = match verdict {
        Verdict::Ended => (0, 0),
        Verdict::Missing(id) => (1, id.value()),
        Verdict::Spent(id) => (2, id.value()),
        Verdict::Circle => (3, 0),
    };
    let rest = accepted([ask, read as u16].into_iter().chain(list.iter().copied()));
    rest.replacen("0 ", &format!("0 {verdict:02X}"), 1)
}

#[test]
fn walks() {
    let (questions, mut taken, mut wrong) = (asked(b'X'), 0, 0);
    for (bytes, answer) in &questions {
        let rest = &mut &bytes[..];
        let budget = u32::from(number(rest)) | u32::from(number(rest)) << 16;
        let mut list = vec![0xEEEE; number(rest).into()].into_boxed_slice();
        let index = index(rest);
        let said = match walk_indexed(rest, &index, budget as usize, &mut list) {
            Ok(walk) => walked(walk, &list),
            Err(why) => {
                assert!(list.iter().all(|place| *place == 0xEEEE), "{bytes:02X?}");
                match why {
                    WalkError::NoRoom(needed) => format!("4 {needed:04X}"),
                    WalkError::BadCapture => IndexError::BadCapture.number().to_string(),
                    WalkError::WrongIndex => IndexError::WrongIndex.number().to_string(),
                }
            }
        };
        assert_eq!(&said, answer, "{bytes:02X?}");
        taken += usize::from(said.starts_with("0 "));
        wrong += usize::from(said == "10");
    }
    println!("{} walks, {taken} of them to a verdict, and {wrong} with a wrong index", questions.len());
    assert!(taken > 100 && wrong > 100);
}
