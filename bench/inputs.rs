//! The rows, and the inputs of each, made by fixed rules: the same in every run and for both sides.

use std::rc::Rc;

use crate::ours::answers;
use crate::{kinds, nothing, original, ours, Call, Room, Row};

/// Inputs of a row all have the length that its calls read.
#[inline(always)]
pub fn fixed<const N: usize>(data: &[u8]) -> &[u8; N] {
    debug_assert!(data.len() >= N);
    unsafe { &*data.as_ptr().cast() }
}

#[inline(always)]
pub fn word(low: u8, high: u8) -> u16 {
    u16::from_le_bytes([low, high])
}

/// The number after this one, in a row that looks random.
fn stepped(mut x: u32) -> u32 {
    x ^= x << 13;
    x ^= x >> 17;
    x ^ x << 5
}

/// 256 records, all accepted: 192 of the system, 32 of each kind of OEM.
fn records() -> Vec<Vec<u8>> {
    let record = |i: u32| {
        let mut x = i.wrapping_mul(2654435761).wrapping_add(12345);
        let mut record: Vec<u8> = (0..16)
            .map(|_| {
                x = stepped(x);
                x as u8
            })
            .collect();
        match i % 8 {
            3 => record[2] = 0xC0 | record[2] & 31,
            7 => record[2] = 0xE0 | record[2] & 31,
            _ => {
                record[2] = 2;
                record[8] &= 0x7F; // a channel from 0 to 7
            }
        }
        record
    };
    (0..256).map(record).collect()
}

/// The flat bytes of a record that is accepted.
fn flat(record: &[u8]) -> Vec<u8> {
    let answer = kinds::entry(record);
    let digits = answer.strip_prefix("0 ").expect("an accepted record");
    (0..digits.len()).step_by(2).map(|i| u8::from_str_radix(&digits[i..i + 2], 16).unwrap()).collect()
}

/// Event type, sensor type and offset of each of the 249 texts.
fn events() -> Vec<Vec<u8>> {
    let generic = (1..=12).map(|event_type| (event_type, 0));
    let specific = (0..=255).map(|sensor_type| (0x6F, sensor_type));
    let all = generic.chain(specific).flat_map(|(event_type, sensor_type)| (0..16).map(move |offset| [event_type, sensor_type, offset]));
    let texts: Vec<Vec<u8>> = all.filter(|event| kinds::event_text(*event) != "0").map(Vec::from).collect();
    assert_eq!(texts.len(), 249);
    texts
}

fn of_event(record: &[u8], event: &[u8]) -> Vec<u8> {
    let mut record = record.to_vec();
    (record[10], record[12], record[13]) = (event[1], event[0], event[2]);
    record
}

/// 3,000 records with ids from 1 on. Those of the system have a text each.
pub fn log() -> Vec<Vec<u8>> {
    let (records, events) = (records(), events());
    let with_id = |k: usize| {
        let record = &records[k % records.len()];
        let mut record = if record[2] == 2 { of_event(record, &events[k % events.len()]) } else { record.clone() };
        record[..2].copy_from_slice(&(k as u16 + 1).to_le_bytes());
        record
    };
    (0..3000).map(with_id).collect()
}

fn slot(ask: u16, next: u16) -> [u8; 20] {
    let mut slot = [0; 20];
    slot[..2].copy_from_slice(&ask.to_le_bytes());
    slot[2..4].copy_from_slice(&next.to_le_bytes());
    slot
}

/// The slots asked for with these ids, all from 0 on: each names the one above it, and the highest `end`.
fn laid(ids: &[u16], end: u16) -> Vec<u8> {
    let n = ids.len() as u16;
    let of_id = |&ask: &u16| slot(ask, if ask + 1 == n { end } else { ask + 1 });
    ids.iter().map(of_id).collect::<Vec<_>>().concat()
}

fn falling(n: u16) -> Vec<u16> {
    (0..n).rev().collect()
}

fn shuffled(n: u16) -> Vec<u16> {
    let (mut ids, mut x): (Vec<u16>, u32) = ((0..n).collect(), 20);
    for k in (1..ids.len()).rev() {
        x = stepped(x);
        ids.swap(k, x as usize % (k + 1));
    }
    ids
}

/// A chain in reverse order: the last slot is asked first.
fn chain(n: u16) -> Vec<u8> {
    laid(&falling(n), 0xFFFF)
}

/// The worst: a circle on the last slot, which every lookup goes to.
fn circle(n: u16) -> Vec<u8> {
    falling(n).into_iter().map(|ask| slot(ask, 0)).collect::<Vec<_>>().concat()
}

fn cut(all: &[Vec<u8>], range: impl std::slice::SliceIndex<[u8], Output = [u8]> + Clone) -> Vec<Vec<u8>> {
    all.iter().map(|bytes| bytes[range.clone()].to_vec()).collect()
}

fn those(all: &[Vec<u8>], keep: impl Fn(&[u8]) -> bool) -> Vec<Vec<u8>> {
    all.iter().filter(|bytes| keep(bytes)).cloned().collect()
}

type Answers = (fn(&[u8]) -> String, fn(&[u8], &mut Room) -> String);

fn row(name: &str, inputs: Vec<Vec<u8>>, rust: Call, ours: Call, answers: Answers) -> Row {
    Row { rust: Some(rust), ..of_ours(name.into(), inputs, 0, ours, answers) }
}

/// What the Rust does not have: the answers that the rules demand stand in for its own.
fn of_ours(name: String, inputs: Vec<Vec<u8>>, tested: usize, ours: Call, answers: Answers) -> Row {
    let (demanded, answer) = answers;
    lent(name, inputs, tested, Rc::default(), ours, (move |input: &[u8], _: &Room| demanded(input), answer))
}

/// The same, of calls to which a capture is lent; what is demanded follows from it.
fn lent(
    name: String, inputs: Vec<Vec<u8>>, tested: usize, capture: Rc<Vec<u8>>, ours: Call,
    (demanded, answer): (impl Fn(&[u8], &Room) -> String + 'static, fn(&[u8], &mut Room) -> String),
) -> Row {
    Row { name, inputs, tested, capture, rust: None, ours, alone: nothing, answers: (Box::new(demanded), answer) }
}

fn entries(records: &[Vec<u8>]) -> Vec<Row> {
    let entry = |name, inputs| row(name, inputs, original::entry, ours::entry, (kinds::entry, answers::entry));
    let by_address = |record: &[u8]| record[2] == 2 && record[7] % 2 == 0;
    let by_software = |record: &[u8]| record[2] == 2 && record[7] % 2 == 1;
    let timed = |record: &[u8]| (0xC0..0xE0).contains(&record[2]);
    let untimed = |record: &[u8]| record[2] >= 0xE0;
    let after_next = |record: &Vec<u8>| [&record[4..6], record].concat();
    let get_entries: Vec<Vec<u8>> = records.iter().map(after_next).collect();
    let same = |name, inputs| row(name, inputs, original::same, ours::same, (|records: &[u8]| kinds::same(*fixed(records)), answers::same));
    let equal = |record: &Vec<u8>| [record.as_slice(), record].concat();
    // In the last byte alone: one that is specified, where it was, by another value.
    let last_differs = |record: &Vec<u8>| [&record[..], &record[..15], &[record[15] ^ 1]].concat();
    vec![
        entry("entry, system by address", those(records, by_address)),
        entry("entry, system by software", those(records, by_software)),
        entry("entry, OEM with time", those(records, timed)),
        entry("entry, OEM without time", those(records, untimed)),
        entry("entry, all 256", records.to_vec()),
        row("entry, all 256, by sel_decode", records.to_vec(), original::entry, ours::decode_entry, (kinds::entry, answers::decode_entry)),
        entry("entry refused, 15 bytes", cut(records, ..15)),
        same("two records, equal", records.iter().map(equal).collect()),
        same("two records, the last byte differs", records.iter().map(last_differs).collect()),
        row("get entry, all 256", get_entries.clone(), original::get_entry, ours::get_entry, (kinds::get_entry, answers::get_entry)),
        row("get entry, all 256, by sel_decode", get_entries.clone(), original::get_entry, ours::decode_get_entry,
            (kinds::get_entry, answers::decode_get_entry)),
        // No record is on a channel from 8h on, so that 1.5 demands what the Rust answers, which goes by 2.0.
        of_ours("entry of a version, 1.5, all 256".into(), records.to_vec(), 0, ours::entry_of_1_5, (kinds::entry, answers::entry_of_1_5)),
        of_ours("get entry of a version, 1.5, all 256".into(), get_entries, 0, ours::get_entry_of_1_5, (kinds::get_entry, answers::get_entry_of_1_5)),
    ]
}

fn accepted(bytes: &[u8]) -> String {
    bytes.iter().fold("0 ".into(), |said, byte| format!("{said}{byte:02X}"))
}

/// By SCOPE's places of a record: its sixteen bytes, from the flat bytes of an entry.
fn written_answer(flat: &[u8]) -> String {
    let value = |kind: usize| if flat[kind] == 0 { 0xFF } else { flat[kind + 1] };
    let record = match flat[0] {
        0 => [
            &flat[1..3],
            &[2],
            &flat[3..7],
            &[flat[8] << 1 | flat[7], flat[9] << 4 | flat[10]],
            &flat[12..15],
            &[flat[15] << 7 | flat[16], flat[18] << 6 | flat[20] << 4 | flat[17], value(18), value(20)],
        ]
        .concat(),
        // Of the maker's four bytes a record has three.
        1 => [&flat[1..11], &flat[12..]].concat(),
        _ => flat[1..].to_vec(),
    };
    accepted(&record)
}

/// Of a system record its generator and its event data.
fn kept(record: &[u8]) -> Vec<u8> {
    [&record[7..9], &record[13..16]].concat()
}

fn kept_answer(record: &[u8]) -> String {
    if record[2] == 2 { accepted(&kept(record)) } else { "0".into() }
}

/// By the same places, but that the kept bytes, which stand first, are put where they came from.
fn written_kept_answer(entry: &[u8]) -> String {
    let (kept, flat) = entry.split_at(5);
    accepted(&[&flat[1..3], &[2], &flat[3..7], &kept[..2], &flat[12..15], &[flat[15] << 7 | flat[16]], &kept[2..]].concat())
}

/// All of a system record but its type: what is given beside a message, and the message.
fn event(record: &[u8]) -> Vec<u8> {
    [&record[..2], &record[3..]].concat()
}

fn made_answer(event: &[u8]) -> String {
    accepted(&[&event[..2], &[2], &event[2..]].concat())
}

fn sent_answer(record: &[u8]) -> String {
    accepted(&record[9..])
}

fn written(records: &[Vec<u8>]) -> Vec<Row> {
    let entry = |name: &str, records: Vec<Vec<u8>>| {
        let inputs = records.iter().map(|record| flat(record)).collect();
        of_ours(name.into(), inputs, 0, ours::write_entry, (written_answer, answers::write_entry))
    };
    let (systems, oems) = (those(records, |record| record[2] == 2), those(records, |record| record[2] != 2));
    let with_kept = systems.iter().map(|record| [kept(record), flat(record)].concat()).collect();
    let events = systems.iter().map(|record| event(record)).collect();
    let keep = |name: &str, records| of_ours(name.into(), records, 0, ours::keep, (kept_answer, answers::keep));
    vec![
        entry("entry written, system", systems.clone()),
        entry("entry written, OEM", oems.clone()),
        keep("bytes kept, system", systems.clone()),
        keep("bytes kept, OEM", oems),
        of_ours("entry written with the bytes kept".into(), with_kept, 0, ours::write_kept, (written_kept_answer, answers::write_kept)),
        of_ours("event message made a record".into(), events, 0, ours::event_to_record, (made_answer, answers::event_to_record)),
        of_ours("record sent as an event message".into(), systems, 0, ours::record_to_event, (sent_answer, answers::record_to_event)),
    ]
}

fn others(records: &[Vec<u8>]) -> Vec<Row> {
    let allocations = cut(records, ..9);
    let event_data = |data: &[u8]| kinds::event_data(*fixed(data));
    vec![
        row("info", cut(records, 2..), original::info, ours::decode_info, (kinds::info, answers::decode_info)),
        row("info refused, 13 bytes", cut(records, 3..), original::info, ours::decode_info, (kinds::info, answers::decode_info)),
        row("info refused, 15 bytes", cut(records, 1..), original::info, ours::decode_info, (kinds::info, answers::decode_info)),
        row("allocation", allocations.clone(), original::allocation, ours::allocation, (kinds::allocation, answers::allocation)),
        row("allocation, by sel_decode", allocations, original::allocation, ours::decode_allocation, (kinds::allocation, answers::decode_allocation)),
        row("reserve", cut(records, 3..5), original::reserve, ours::decode_reserve, (kinds::reserve, answers::decode_reserve)),
        row("reserve refused, 0", vec![vec![0, 0]], original::reserve, ours::decode_reserve, (kinds::reserve, answers::decode_reserve)),
        row("clear", cut(records, 3..4), original::clear, ours::decode_clear, (kinds::clear, answers::decode_clear)),
        row("event data", cut(records, 13..), original::event_data, ours::decode_event_data, (event_data, answers::decode_event_data)),
        of_ours("event data by type".into(), cut(records, 12..), 0, ours::typed_data, (typed_answer, answers::typed_data)),
    ]
}

fn texts(records: &[Vec<u8>]) -> Vec<Row> {
    let events = events();
    let of_events = events.iter().map(|event| of_event(&records[0], event)).collect();
    let event_text = |event: &[u8]| kinds::event_text(*fixed(event));
    let data_text = |data: &[u8]| kinds::event_data_text(*fixed(data));
    let time_text = |time: &[u8]| kinds::time_text(*fixed(time));
    vec![
        row("event text, single", events.clone(), original::event_text, ours::event_text, (event_text, answers::event_text)),
        row("event text, store lent", events, original::event_text, ours::event_text_from, (event_text, answers::event_text_from)),
        row("event text, single, of a record", of_events, original::entry_text, ours::decode_entry_text, (kinds::entry_text, answers::decode_entry_text)),
        row("event data text", cut(records, 13..), original::event_data_text, ours::data_text, (data_text, answers::data_text)),
        of_ours("event data text by type".into(), cut(records, 12..), 0, ours::typed_text, (typed_text_answer, answers::typed_text)),
        row("timestamp text", cut(records, 3..7), original::time_text, ours::time_text, (time_text, answers::time_text)),
        of_ours("timestamp text of the log".into(), cut(records, 3..7), 0, ours::log_time_text, (log_time_answer, answers::log_time_text)),
    ]
}

/// By SCOPE's table: offset, and what each of the two bytes is and its value.
fn typed(data: &[u8]) -> [u8; 5] {
    let [event, first, second, third] = *fixed(data);
    let (kinds2, kinds3) = match event & 0x7F {
        0x02..=0x0C | 0x6F => ([0, 4, 2, 3], [0, 5, 2, 3]),
        0x70..=0x7F => ([0, 4, 2, 5], [0, 5, 2, 5]),
        _ => ([0, 1, 2, 3], [0, 1, 2, 3]),
    };
    let told = |kind, value| match (kind, value) {
        (5, _) => (5, 0),
        (0, _) | (_, 0xFF) => (0, 0),
        specified => specified,
    };
    let (kind2, value2) = told(kinds2[usize::from(first >> 6)], second);
    let (kind3, value3) = told(kinds3[usize::from(first >> 4 & 3)], third);
    [first & 15, kind2, value2, kind3, value3]
}

fn typed_answer(data: &[u8]) -> String {
    accepted(&typed(data))
}

fn typed_text_answer(data: &[u8]) -> String {
    let [_, kind2, value2, kind3, value3] = typed(data);
    let second = match kind2 {
        1 => format!("reading={value2}"),
        2 => format!("oem2=0x{value2:02X}"),
        3 => format!("ext2=0x{value2:02X}"),
        4 => format!("prev=0x{value2:02X}"),
        _ => String::new(),
    };
    let third = match kind3 {
        1 => format!("threshold={value3}"),
        2 => format!("oem3=0x{value3:02X}"),
        3 => format!("ext3=0x{value3:02X}"),
        _ => String::new(),
    };
    let comma = if second.is_empty() || third.is_empty() { "" } else { ", " };
    format!("0 {second}{comma}{third}").trim_end().into()
}

/// By SCOPE's ranges.
fn log_time_answer(time: &[u8]) -> String {
    match u32::from_le_bytes(*fixed(time)) {
        0 => "0 Unknown".into(),
        since @ 1..=0x2000_0000 => format!("0 +{since}"),
        u32::MAX => "0 none".into(),
        date => format!("0 {date}"),
    }
}

fn requests(records: &[Vec<u8>]) -> Vec<Row> {
    let asked = |question: &[u8]| kinds::request(question).unwrap();
    let with_action = |action: u8| records.iter().map(|record| vec![0x47, record[3], record[4], action]).collect();
    let of_id = |record: &Vec<u8>| vec![0x43, record[3], record[4], record[0], record[1]];
    vec![
        row("request 40h", vec![vec![0x40]], original::request_info, ours::request_info, (asked, answers::request_info)),
        row("request 41h", vec![vec![0x41]], original::request_allocation, ours::request_allocation, (asked, answers::request_allocation)),
        row("request 42h", vec![vec![0x42]], original::request_reserve, ours::request_reserve, (asked, answers::request_reserve)),
        row("request 43h", records.iter().map(of_id).collect(), original::request_entry, ours::request_entry, (asked, answers::request_entry)),
        row("request 47h, erase", with_action(0xAA), original::request_erase, ours::request_erase, (asked, answers::request_erase)),
        row("request 47h, status", with_action(0x00), original::request_status, ours::request_status, (asked, answers::request_status)),
    ]
}

/// By the rules: offset and count of each read where at most m bytes come at once.
fn reads(m: usize) -> Vec<(usize, usize)> {
    (0..16).step_by(m).map(|offset| (offset, m.min(16 - offset))).collect()
}

fn reads_answer(question: &[u8]) -> String {
    accepted(&reads(question[0].into()).iter().flat_map(|(offset, count)| [*offset as u8, *count as u8]).collect::<Vec<_>>())
}

/// Reservation, id, offset and count, as they stand in the question behind the command.
fn part_answer(question: &[u8]) -> String {
    accepted(&question[1..])
}

/// The answers to the reads of a record, end to end, all with the next id that two of its bytes make.
fn in_parts(record: &[u8], m: usize) -> Vec<u8> {
    reads(m).iter().flat_map(|(offset, count)| [&record[4..6], &record[*offset..][..*count]].concat()).collect()
}

fn joined_answer<const M: usize>(answers: &[u8]) -> String {
    let record: Vec<u8> = answers.chunks(2 + M).flat_map(|answer| answer[2..].to_vec()).collect();
    format!("0 0 next={:04X} got=16 {record:02X?}", word(answers[0], answers[1]))
}

/// The Rust has the six bytes of the request too, but asks for whole records alone: its side of that row is its request for a whole record.
fn parts(records: &[Vec<u8>]) -> Vec<Row> {
    let reads = |m: u8| of_ours(format!("reads, m = {m}"), vec![vec![m]], 0, ours::reads, (reads_answer, answers::reads));
    let part = |(record, offset): (&Vec<u8>, u8)| {
        let (offset, left) = (offset % 16, 16 - offset % 16);
        vec![0x43, record[3] | 1, record[4], record[0], record[1], offset, 1 + record[5] % left]
    };
    let in_parts = |m| records.iter().map(|record| in_parts(record, m)).collect();
    vec![
        reads(1),
        reads(16),
        row("request 43h for a part, the Rust's for the whole", records.iter().zip((0..16).cycle()).map(part).collect(), original::request_entry,
            ours::request_part, (part_answer, answers::request_part)),
        of_ours("record joined by 1, 16 answers".into(), in_parts(1), 0, ours::join_by_1, (joined_answer::<1>, answers::join_by_1)),
        of_ours("record joined by 4, 4 answers".into(), in_parts(4), 0, ours::join_by_4, (joined_answer::<4>, answers::join_by_4)),
        of_ours("record joined by 16, 1 answer".into(), in_parts(16), 0, ours::join_by_16, (joined_answer::<16>, answers::join_by_16)),
    ]
}

fn slots(capture: &[u8]) -> usize {
    capture.len() / 20
}

fn searches() -> Vec<Row> {
    let found = |capture: &[u8]| format!("1 {}", slots(capture) - 1);
    let ended = |capture: &[u8]| format!("0 verdict=0 ask=0 read={} needed=0", slots(capture));
    let in_circle = |capture: &[u8]| format!("0 verdict=3 ask=0 read={} needed=0", slots(capture));
    let mut rows = Vec::new();
    for n in [10, 100, 1000, 3000] {
        let (n, chain, circle) = (usize::from(n), vec![chain(n)], vec![circle(n)]);
        rows.push(of_ours(format!("find, last of {n}"), chain.clone(), n, ours::find, (found, answers::find)));
        rows.push(of_ours(format!("walk, chain of {n}"), chain, n * (n + 1) / 2, ours::walk, (ended, answers::walk)));
        rows.push(of_ours(format!("walk, circle of {n}"), circle, n * (n + 1), ours::walk, (in_circle, answers::walk)));
    }
    rows
}

/// The numbers of the slots, by a plain sort.
pub fn index(capture: &[u8]) -> Vec<u16> {
    let mut keys: Vec<(u16, u16)> = capture.chunks(20).zip(0..).map(|(slot, number)| (word(slot[0], slot[1]), number)).collect();
    keys.sort();
    keys.iter().map(|key| key.1).collect()
}

fn scanned(capture: &[u8], id: &[u8]) -> Option<usize> {
    capture.chunks(20).position(|slot| slot[..2] == *id)
}

fn found_answer(id: &[u8], room: &Room) -> String {
    scanned(&room.slots, id).map_or("0 0".into(), |slot| format!("1 {slot}"))
}

fn index_answer(_: &[u8], room: &Room) -> String {
    format!("0 {} {:?}", room.index.len(), room.index)
}

/// Of a capture whose chain goes through all slots. It is settled by what the last one names.
fn walked_answer(_: &[u8], room: &Room) -> String {
    let (mut ask, mut list) = (&[0, 0][..], Vec::new());
    for _ in 0..slots(&room.slots) {
        let slot = scanned(&room.slots, ask).expect("a slot of the chain");
        list.push(slot);
        ask = &room.slots[20 * slot + 2..][..2];
    }
    let verdict = if ask == [0xFF, 0xFF] { 0 } else { 3 };
    format!("0 verdict={verdict} ask=0 read={} needed=0 {list:?}", list.len())
}

/// With the index of a capture, and without it. The last of the ids that are sought by the index is no slot's, and above all of them: an id in
/// between is sought as the next one above it.
fn beside(which: &str, capture: Vec<u8>) -> Vec<Row> {
    let (n, capture) = (slots(&capture), Rc::new(capture));
    let asked: Vec<Vec<u8>> = capture.chunks(20).map(|slot| slot[..2].to_vec()).collect();
    let and_absent = [&asked[..], &[vec![0xFF, 0xFF]]].concat();
    let lend = |name, inputs, tested, ours, answers: (fn(&[u8], &Room) -> String, _)| {
        lent(format!("{name}, {which}"), inputs, tested, capture.clone(), ours, answers)
    };
    let whole = |name, ours, answers| lend(name, vec![vec![]], n, ours, answers);
    vec![
        lend("find by index", and_absent, 0, ours::find_indexed, (found_answer, answers::find_indexed)),
        lend("find by full search", asked, n, ours::find_asked, (found_answer, answers::find_asked)),
        whole("index checked", ours::check_index, (|_, _| "0".into(), answers::check_index)),
        whole("index made", ours::make_index, (index_answer, answers::make_index)),
        Row { alone: ours::restore, ..whole("last slot added to the index", ours::add_to_index, (index_answer, answers::add_to_index)) },
        whole("walk by index", ours::walk_indexed, (walked_answer, answers::walk_indexed)),
        whole("walk by full search", ours::walk_asked, (walked_answer, answers::walk_asked)),
    ]
}

fn orders(n: u16) -> [(&'static str, Vec<u16>, u16); 4] {
    let rising: Vec<u16> = (0..n).collect();
    [("chain", rising.clone(), 0xFFFF), ("circle", rising, 0), ("reverse", falling(n), 0xFFFF), ("random", shuffled(n), 0xFFFF)]
}

/// Made as they are asked for: a run needs one of them.
pub fn indexed() -> impl Iterator<Item = Row> {
    let all = [10, 100, 1000, 3000].into_iter().flat_map(orders);
    all.flat_map(|(order, ids, end)| beside(&format!("{order} of {}", ids.len()), laid(&ids, end)))
}

/// By SCOPE's numbers: the least length, and for an info the only one.
fn needed(kind: u8) -> u8 {
    match kind {
        b'e' => 16,
        b'g' => 18,
        b'i' => 14,
        b'a' => 9,
        b'r' => 2,
        _ => 1,
    }
}

fn length_answer(question: &[u8]) -> String {
    let (kind, length) = (question[0], question[1]);
    match needed(kind) {
        needed if length < needed => format!("1 {needed}"),
        needed if kind == b'i' && length > needed => "8 0".into(),
        _ => "0 0".into(),
    }
}

fn count_answer(question: &[u8]) -> String {
    needed(question[0]).to_string()
}

/// By SCOPE: 1, 8 and 9 are one number in the Rust.
fn ported_answer(question: &[u8]) -> String {
    match (question[0], question[1]) {
        (1 | 8 | 9, _) => "1 0".into(),
        (number, value) => format!("{number} {value}"),
    }
}

fn slots_answer(question: &[u8]) -> String {
    let length = word(question[0], question[1]);
    (if length % 20 == 0 && length <= 60_000 { "0" } else { "5" }).into()
}

fn lengths() -> Vec<Row> {
    let kinds = b"egiarc".iter();
    let questions = kinds.clone().flat_map(|kind| (0..20).map(|length| vec![*kind, length, 0])).collect();
    let refusals = vec![vec![1, 16], vec![2, 0xBF], vec![3, 12], vec![8, 0], vec![9, 0]];
    // Every other one is a multiple of 20, and the last are too long.
    let captures = (0..256u16).map(|k| (k * 250).to_le_bytes().to_vec()).collect();
    vec![
        of_ours("length".into(), questions, 0, ours::length, (length_answer, answers::length)),
        of_ours("refusal mapped back".into(), refusals, 0, ours::ported, (ported_answer, answers::ported)),
        of_ours("bytes that count".into(), kinds.map(|kind| vec![*kind]).collect(), 0, ours::bytes_that_count, (count_answer, answers::bytes_that_count)),
        of_ours("length of a capture".into(), captures, 0, ours::slots_length, (slots_answer, answers::slots_length)),
    ]
}

pub fn rows() -> impl Iterator<Item = Row> {
    let records = records();
    let of_records = [entries, written, others, texts, requests, parts];
    of_records.into_iter().flat_map(move |rows| rows(&records)).chain(lengths()).chain(searches())
}
