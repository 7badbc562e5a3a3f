//! Our side: the C functions of the static library, called as any C program calls them.

#![allow(unused_variables)] // some calls need no input, or no room

use std::hint::black_box;

use crate::inputs::{fixed, word};
use crate::Room;

#[repr(C)]
pub struct Answer {
    number: u32,
    value: usize,
}

#[repr(C)]
pub struct Found {
    found: usize,
    slot: usize,
}

#[repr(C)]
pub struct Joined {
    number: u32,
    value: u32,
    next: u16,
    got: u8,
}

#[repr(C)]
pub struct Same {
    number: u32,
    value: u32,
    same: u32,
    refused: u32,
}

#[repr(C)]
pub struct TypedData {
    offset: u8,
    kind2: u8,
    value2: u8,
    kind3: u8,
    value3: u8,
}

#[repr(C)]
pub struct Walk {
    number: u32,
    verdict: u16,
    ask: u16,
    read: u32,
    needed: u32,
}

#[link(name = "abi", kind = "static")]
extern "C" {
    fn sel_entry(data: *const u8, data_length: usize, out: *mut u8, out_length: usize) -> Answer;
    fn sel_write_entry(flat: *const u8, flat_length: usize, out: *mut u8, out_length: usize) -> Answer;
    fn sel_keep(data: *const u8, data_length: usize, out: *mut u8, out_length: usize) -> Answer;
    fn sel_write_kept(
        kept: *const u8, kept_length: usize, flat: *const u8, flat_length: usize, out: *mut u8, out_length: usize,
    ) -> Answer;
    fn sel_event_to_record(
        record_id: u16, time: u32, generator1: u8, generator2: u8, message: *const u8, message_length: usize, out: *mut u8, out_length: usize,
    ) -> Answer;
    fn sel_record_to_event(record: *const u8, record_length: usize, out: *mut u8, out_length: usize) -> Answer;
    fn sel_same_entry(a: *const u8, a_length: usize, b: *const u8, b_length: usize) -> Same;
    fn sel_get_entry(data: *const u8, data_length: usize, out: *mut u8, out_length: usize) -> Answer;
    fn sel_entry_of(version: u8, data: *const u8, data_length: usize, out: *mut u8, out_length: usize) -> Answer;
    fn sel_get_entry_of(version: u8, data: *const u8, data_length: usize, out: *mut u8, out_length: usize) -> Answer;
    fn sel_allocation(data: *const u8, data_length: usize, out: *mut u8, out_length: usize) -> Answer;
    fn sel_decode(kind: u8, data: *const u8, data_length: usize, out: *mut u8, out_length: usize) -> Answer;
    fn sel_length(kind: u8, len: usize) -> Answer;
    fn sel_ported(number: u32, value: usize) -> Answer;
    fn sel_bytes_that_count(kind: u8) -> usize;
    fn sel_event_text(event_type: u8, sensor_type: u8, offset: u8, out: *mut u8, out_length: usize) -> Answer;
    fn sel_texts(store: *mut u8, store_length: usize, starts: *mut u16, starts_length: usize, lengths: *mut u8, lengths_length: usize) -> Answer;
    fn sel_event_text_from(
        store: *const u8, store_length: usize, starts: *const u16, starts_length: usize, lengths: *const u8, lengths_length: usize,
        event_type: u8, sensor_type: u8, offset: u8, out: *mut u8, out_length: usize,
    ) -> Answer;
    fn sel_data_text(b1: u8, b2: u8, b3: u8, out: *mut u8, out_length: usize) -> Answer;
    fn sel_typed_data(event_type: u8, b1: u8, b2: u8, b3: u8) -> TypedData;
    fn sel_typed_text(event_type: u8, b1: u8, b2: u8, b3: u8, out: *mut u8, out_length: usize) -> Answer;
    fn sel_time_text(time: u32, out: *mut u8, out_length: usize) -> Answer;
    fn sel_log_time_text(time: u32, out: *mut u8, out_length: usize) -> Answer;
    fn sel_request(command: u8, reservation: u16, argument: u16, out: *mut u8, out_length: usize) -> Answer;
    fn sel_reads(m: u8, out: *mut u8, out_length: usize) -> Answer;
    fn sel_request_part(reservation_id: u16, record_id: u16, offset: u8, bytes_to_read: u8, out: *mut u8, out_length: usize) -> Answer;
    fn sel_join(m: u8, got: u8, next: u16, answer: *const u8, answer_length: usize, record: *mut u8, record_length: usize) -> Joined;
    fn sel_slots_length(len: usize) -> u32;
    fn sel_find(slots: *const u8, slots_length: usize, id: u16) -> Found;
    fn sel_walk(slots: *const u8, slots_length: usize, budget: usize, list: *mut u16, list_length: usize) -> Walk;
    fn sel_index_make(
        slots: *const u8, slots_length: usize, index: *mut u16, index_length: usize, scratch: *mut u16, scratch_length: usize,
    ) -> Answer;
    fn sel_index_add(slots: *const u8, slots_length: usize, index: *mut u16, index_length: usize) -> Answer;
    fn sel_index_check(slots: *const u8, slots_length: usize, index: *const u16, index_length: usize) -> u32;
    fn sel_find_indexed(slots: *const u8, slots_length: usize, index: *const u16, index_length: usize, id: u16) -> Found;
    fn sel_walk_indexed(
        slots: *const u8, slots_length: usize, index: *const u16, index_length: usize, budget: usize, list: *mut u16, list_length: usize,
    ) -> Walk;
}

pub fn fill_store(room: &mut Room) {
    let Room { store, starts, lengths, .. } = room;
    let answer = unsafe { sel_texts(store.as_mut_ptr(), store.len(), starts.as_mut_ptr(), starts.len(), lengths.as_mut_ptr(), lengths.len()) };
    assert_eq!(answer.number, 0, "sel_texts");
}

#[inline(always)]
unsafe fn decode(kind: u8, data: &[u8], room: &mut Room) -> Answer {
    sel_decode(kind, data.as_ptr(), data.len(), room.out.as_mut_ptr(), room.out.len())
}

#[inline(always)]
unsafe fn request(command: u8, reservation: u16, argument: u16, room: &mut Room) -> Answer {
    sel_request(command, reservation, argument, room.out.as_mut_ptr(), room.out.len())
}

/// Joins a record from its answers, which stand end to end: each but the last is of m bytes behind a next id.
#[inline(always)]
unsafe fn join(m: u8, answers: &[u8], room: &mut Room) -> Joined {
    let mut joined = Joined { number: 0, value: 0, next: 0, got: 0 };
    for answer in answers.chunks(2 + usize::from(m)) {
        joined = sel_join(m, joined.got, joined.next, answer.as_ptr(), answer.len(), room.out.as_mut_ptr(), room.out.len());
    }
    joined
}

/// Puts back the index of all slots but the last one, which the call before has extended.
#[inline(never)] // so that it is the same code where it is counted alone
pub fn restore(nothing: &[u8], room: &mut Room) {
    room.made[..room.before.len()].copy_from_slice(&room.before);
}

/// Each call is said once: `NAME` makes it and keeps the answer, `answers::NAME` makes it and shows the answer in the form of `replay`.
macro_rules! calls {
    ($($name:ident, $shown:ident: |$data:ident, $room:ident| $answer:expr;)*) => {
        $(pub fn $name($data: &[u8], $room: &mut Room) {
            black_box(&unsafe { $answer });
        })*

        pub mod answers {
            use super::*;

            $(pub fn $name($data: &[u8], $room: &mut Room) -> String {
                let answer = unsafe { $answer };
                $shown(answer, $room)
            })*
        }
    };
}

calls! {
    entry, hex: |data, room| sel_entry(data.as_ptr(), data.len(), room.out.as_mut_ptr(), room.out.len());
    write_entry, hex: |flat, room| sel_write_entry(flat.as_ptr(), flat.len(), room.out.as_mut_ptr(), room.out.len());
    keep, hex: |data, room| sel_keep(data.as_ptr(), data.len(), room.out.as_mut_ptr(), room.out.len());
    // The five kept bytes of a system entry, and then its flat bytes.
    write_kept, hex: |entry, room| {
        let (kept, flat) = entry.split_at(5);
        sel_write_kept(kept.as_ptr(), kept.len(), flat.as_ptr(), flat.len(), room.out.as_mut_ptr(), room.out.len())
    };
    // The id, the time and the generator of a record, and then its message.
    event_to_record, hex: |event, room| {
        let [id_low, id_high, time1, time2, time3, time4, generator1, generator2] = *fixed(event);
        let (id, time, message) = (word(id_low, id_high), u32::from_le_bytes([time1, time2, time3, time4]), &event[8..]);
        sel_event_to_record(id, time, generator1, generator2, message.as_ptr(), message.len(), room.out.as_mut_ptr(), room.out.len())
    };
    record_to_event, hex: |record, room| sel_record_to_event(record.as_ptr(), record.len(), room.out.as_mut_ptr(), room.out.len());
    same, sameness: |records, room| {
        let (a, b) = records.split_at(16);
        sel_same_entry(a.as_ptr(), a.len(), b.as_ptr(), b.len())
    };
    get_entry, hex: |data, room| sel_get_entry(data.as_ptr(), data.len(), room.out.as_mut_ptr(), room.out.len());
    entry_of_1_5, hex: |data, room| sel_entry_of(0x51, data.as_ptr(), data.len(), room.out.as_mut_ptr(), room.out.len());
    get_entry_of_1_5, hex: |data, room| sel_get_entry_of(0x51, data.as_ptr(), data.len(), room.out.as_mut_ptr(), room.out.len());
    allocation, hex: |data, room| sel_allocation(data.as_ptr(), data.len(), room.out.as_mut_ptr(), room.out.len());
    decode_entry, hex: |data, room| decode(b'e', data, room);
    decode_get_entry, hex: |data, room| decode(b'g', data, room);
    decode_allocation, hex: |data, room| decode(b'a', data, room);
    decode_info, hex: |data, room| decode(b'i', data, room);
    decode_reserve, hex: |data, room| decode(b'r', data, room);
    decode_clear, hex: |data, room| decode(b'c', data, room);
    decode_event_data, hex: |data, room| decode(b'd', data, room);
    decode_entry_text, text: |data, room| decode(b'y', data, room);
    event_text, text: |event, room| {
        let [event_type, sensor_type, offset] = *fixed(event);
        sel_event_text(event_type, sensor_type, offset, room.out.as_mut_ptr(), room.out.len())
    };
    event_text_from, text: |event, room| {
        let [event_type, sensor_type, offset] = *fixed(event);
        let Room { store, starts, lengths, out, .. } = room;
        sel_event_text_from(
            store.as_ptr(), store.len(), starts.as_ptr(), starts.len(), lengths.as_ptr(), lengths.len(),
            event_type, sensor_type, offset, out.as_mut_ptr(), out.len(),
        )
    };
    data_text, text: |data, room| {
        let [b1, b2, b3] = *fixed(data);
        sel_data_text(b1, b2, b3, room.out.as_mut_ptr(), room.out.len())
    };
    typed_data, numbers: |data, room| {
        let [event_type, b1, b2, b3] = *fixed(data);
        sel_typed_data(event_type, b1, b2, b3)
    };
    typed_text, text: |data, room| {
        let [event_type, b1, b2, b3] = *fixed(data);
        sel_typed_text(event_type, b1, b2, b3, room.out.as_mut_ptr(), room.out.len())
    };
    time_text, text: |time, room| sel_time_text(u32::from_le_bytes(*fixed(time)), room.out.as_mut_ptr(), room.out.len());
    log_time_text, text: |time, room| sel_log_time_text(u32::from_le_bytes(*fixed(time)), room.out.as_mut_ptr(), room.out.len());
    request_info, hex: |question, room| request(0x40, 0, 0, room);
    request_allocation, hex: |question, room| request(0x41, 0, 0, room);
    request_reserve, hex: |question, room| request(0x42, 0, 0, room);
    request_erase, hex: |question, room| {
        let [_, low, high, _] = *fixed(question);
        request(0x47, word(low, high), 0xAA, room)
    };
    request_status, hex: |question, room| {
        let [_, low, high, _] = *fixed(question);
        request(0x47, word(low, high), 0x00, room)
    };
    request_entry, hex: |question, room| {
        let [_, low, high, id_low, id_high] = *fixed(question);
        request(0x43, word(low, high), word(id_low, id_high), room)
    };
    reads, hex: |question, room| {
        let [m] = *fixed(question);
        sel_reads(m, room.out.as_mut_ptr(), room.out.len())
    };
    request_part, hex: |question, room| {
        let [_, low, high, id_low, id_high, offset, bytes_to_read] = *fixed(question);
        sel_request_part(word(low, high), word(id_low, id_high), offset, bytes_to_read, room.out.as_mut_ptr(), room.out.len())
    };
    join_by_1, record: |answers, room| join(1, answers, room);
    join_by_4, record: |answers, room| join(4, answers, room);
    join_by_16, record: |answers, room| join(16, answers, room);
    length, told: |question, room| {
        let [kind, low, high] = *fixed(question);
        sel_length(kind, word(low, high) as usize)
    };
    ported, told: |question, room| {
        let [number, value] = *fixed(question);
        sel_ported(number.into(), value.into())
    };
    bytes_that_count, number: |question, room| {
        let [kind] = *fixed(question);
        sel_bytes_that_count(kind)
    };
    slots_length, number: |question, room| {
        let [low, high] = *fixed(question);
        sel_slots_length(word(low, high) as usize)
    };
    // The last slot's id is 0000: every slot is tested.
    find, slot: |slots, room| sel_find(slots.as_ptr(), slots.len(), 0x0000);
    // With one lookup more than there are slots.
    walk, verdict: |slots, room| sel_walk(slots.as_ptr(), slots.len(), slots.len() / 20 + 1, room.list.as_mut_ptr(), room.list.len());
    // From here on the capture is the one that is lent, and so is its index.
    find_asked, slot: |id, room| {
        let [low, high] = *fixed(id);
        sel_find(room.slots.as_ptr(), room.slots.len(), word(low, high))
    };
    find_indexed, slot: |id, room| {
        let [low, high] = *fixed(id);
        sel_find_indexed(room.slots.as_ptr(), room.slots.len(), room.index.as_ptr(), room.index.len(), word(low, high))
    };
    check_index, number: |nothing, room| sel_index_check(room.slots.as_ptr(), room.slots.len(), room.index.as_ptr(), room.index.len());
    make_index, index: |nothing, room| {
        let Room { slots, made, scratch, .. } = room;
        sel_index_make(slots.as_ptr(), slots.len(), made.as_mut_ptr(), made.len(), scratch.as_mut_ptr(), scratch.len())
    };
    add_to_index, index: |nothing, room| {
        restore(nothing, room);
        sel_index_add(room.slots.as_ptr(), room.slots.len(), room.made.as_mut_ptr(), room.made.len())
    };
    walk_asked, walked: |nothing, room| {
        let Room { slots, list, .. } = room;
        sel_walk(slots.as_ptr(), slots.len(), slots.len() / 20 + 1, list.as_mut_ptr(), list.len())
    };
    walk_indexed, walked: |nothing, room| {
        let Room { slots, index, list, .. } = room;
        sel_walk_indexed(slots.as_ptr(), slots.len(), index.as_ptr(), index.len(), slots.len() / 20 + 1, list.as_mut_ptr(), list.len())
    };
}

/// A refusal is mapped back to the Rust's by the library's own mapping.
fn refused_or(answer: Answer, room: &Room, shown: impl Fn(&[u8]) -> String) -> String {
    if answer.number == 0 {
        return if answer.value == 0 { "0".into() } else { format!("0 {}", shown(&room.out[..answer.value])) };
    }
    match unsafe { sel_ported(answer.number, answer.value) } {
        Answer { number: 1, .. } => "1".into(),
        Answer { number, value } => format!("{number} {value:02X}"),
    }
}

fn hex(answer: Answer, room: &Room) -> String {
    refused_or(answer, room, |bytes| bytes.iter().map(|byte| format!("{byte:02X}")).collect())
}

fn text(answer: Answer, room: &Room) -> String {
    refused_or(answer, room, |bytes| String::from_utf8(bytes.to_vec()).unwrap())
}

fn number(answer: impl ToString, _: &Room) -> String {
    answer.to_string()
}

fn told(answer: Answer, _: &Room) -> String {
    format!("{} {}", answer.number, answer.value)
}

fn numbers(answer: TypedData, _: &Room) -> String {
    let TypedData { offset, kind2, value2, kind3, value3 } = answer;
    format!("0 {offset:02X}{kind2:02X}{value2:02X}{kind3:02X}{value3:02X}")
}

fn sameness(answer: Same, _: &Room) -> String {
    match answer.number {
        0 => format!("0 {:02X}", answer.same),
        number => format!("{number} {:02X} of record {}", answer.value, answer.refused),
    }
}

fn record(answer: Joined, room: &Room) -> String {
    format!("{} {} next={:04X} got={} {:02X?}", answer.number, answer.value, answer.next, answer.got, &room.out[..16])
}

fn slot(answer: Found, _: &Room) -> String {
    format!("{} {}", answer.found, answer.slot)
}

fn verdict(answer: Walk, _: &Room) -> String {
    format!("{} verdict={} ask={} read={} needed={}", answer.number, answer.verdict, answer.ask, answer.read, answer.needed)
}

fn walked(answer: Walk, room: &Room) -> String {
    let list = &room.list[..answer.read as usize];
    format!("{} {list:?}", verdict(answer, room))
}

fn index(answer: Answer, room: &Room) -> String {
    format!("{} {} {:?}", answer.number, answer.value, &room.made[..answer.value])
}
