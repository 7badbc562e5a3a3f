//! The original's side: what its user writes to get an answer. A text goes through `write!` into the lent output.

use std::fmt::{self, Write};
use std::hint::black_box;
use std::num::NonZeroU16;

use ipmi_rs_core::connection::{IpmiCommand, Message};
use ipmi_rs_core::storage::sdr::{decode_event, EventData, SensorType};
use ipmi_rs_core::storage::sel::{ClearSel, Entry, GetSelEntry, GetSelInfo, RecordId, ReserveSel, SelGetAllocInfo};
use ipmi_rs_core::storage::Timestamp;

use crate::inputs::{fixed, word};
use crate::Room;

pub fn entry(record: &[u8], _: &mut Room) {
    black_box(&Entry::parse(record));
}

/// Two records, end to end; the first that is refused answers.
pub fn same(records: &[u8], _: &mut Room) {
    let (first, second) = records.split_at(16);
    black_box(&match (Entry::parse(first), Entry::parse(second)) {
        (Ok(first), Ok(second)) => Ok(first == second),
        (Err(why), _) | (_, Err(why)) => Err(why),
    });
}

pub fn get_entry(answer: &[u8], _: &mut Room) {
    black_box(&GetSelEntry::parse_success_response(answer));
}

pub fn info(answer: &[u8], _: &mut Room) {
    black_box(&GetSelInfo::parse_success_response(answer));
}

pub fn allocation(answer: &[u8], _: &mut Room) {
    black_box(&SelGetAllocInfo::parse_success_response(answer));
}

pub fn reserve(answer: &[u8], _: &mut Room) {
    black_box(&ReserveSel::parse_success_response(answer));
}

pub fn clear(answer: &[u8], _: &mut Room) {
    black_box(&ClearSel::parse_success_response(answer));
}

pub fn event_data(data: &[u8], _: &mut Room) {
    black_box(&EventData::parse(fixed(data)));
}

fn text(text: impl fmt::Display, room: &mut Room) {
    room.used = 0;
    let _ = black_box(write!(room, "{text}"));
    black_box(room);
}

pub fn event_data_text(data: &[u8], room: &mut Room) {
    text(EventData::parse(fixed(data)), room);
}

pub fn time_text(time: &[u8], room: &mut Room) {
    text(Timestamp::from(u32::from_le_bytes(*fixed(time))), room);
}

/// The original writes a text to a formatter, which only `Display` has.
struct Event(u8, u8, u8);

impl fmt::Display for Event {
    fn fmt(&self, f: &mut fmt::Formatter<'_>) -> fmt::Result {
        decode_event(f, self.0, SensorType::from(self.1), self.2)
    }
}

pub fn event_text(event: &[u8], room: &mut Room) {
    let [event_type, sensor_type, offset] = *fixed(event);
    text(Event(event_type, sensor_type, offset), room);
}

struct EntryText<'a>(&'a Entry);

impl fmt::Display for EntryText<'_> {
    fn fmt(&self, f: &mut fmt::Formatter<'_>) -> fmt::Result {
        self.0.event_description(f)
    }
}

pub fn entry_text(record: &[u8], room: &mut Room) {
    match Entry::parse(record) {
        Ok(entry) => text(EntryText(&entry), room),
        Err(why) => {
            black_box(&why);
        }
    }
}

fn request(request: impl Into<Message>) {
    let message: Message = request.into();
    black_box(&message);
}

pub fn request_info(_: &[u8], _: &mut Room) {
    request(GetSelInfo);
}

pub fn request_allocation(_: &[u8], _: &mut Room) {
    request(SelGetAllocInfo);
}

pub fn request_reserve(_: &[u8], _: &mut Room) {
    request(ReserveSel);
}

pub fn request_erase(question: &[u8], _: &mut Room) {
    let [_, low, high, _] = *fixed(question);
    request(ClearSel::initiate(NonZeroU16::new(word(low, high))));
}

pub fn request_status(question: &[u8], _: &mut Room) {
    let [_, low, high, _] = *fixed(question);
    request(ClearSel::get_status(NonZeroU16::new(word(low, high))));
}

pub fn request_entry(question: &[u8], _: &mut Room) {
    let [_, low, high, id_low, id_high] = *fixed(question);
    let Some(id) = RecordId::new(word(id_low, id_high)) else { return };
    request(GetSelEntry::new(NonZeroU16::new(word(low, high)), id));
}
