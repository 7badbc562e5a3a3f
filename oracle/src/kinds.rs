//! One function a kind of question: from its bytes to its line of answer.

use std::fmt;
use std::num::NonZeroU16;

use ipmi_rs_core::connection::{IpmiCommand, Message};
use ipmi_rs_core::storage::sdr::{decode_event, EventData, EventData2Type, EventData3Type, SensorType};
use ipmi_rs_core::storage::sel::{
    ClearSel, Entry, ErasureProgress, EventDirection, EventGenerator, EventMessageRevision, GetSelEntry, GetSelInfo,
    ParseEntryError, RecordId, ReserveSel, SelCommand, SelGetAllocInfo,
};
use ipmi_rs_core::storage::Timestamp;

const NOT_ENOUGH_DATA: &str = "1";

pub fn hex(bytes: &[u8]) -> String {
    bytes.iter().map(|byte| format!("{byte:02X}")).collect()
}

/// Accepted, with flat bytes or a text; nothing but the number for an empty one.
pub fn accepted(what: &str) -> String {
    if what.is_empty() {
        "0".into()
    } else {
        format!("0 {what}")
    }
}

fn refused(why: ParseEntryError) -> String {
    match why {
        ParseEntryError::NotEnoughData => NOT_ENOUGH_DATA.into(),
        ParseEntryError::UnknownRecordType(value) => format!("2 {value:02X}"),
        ParseEntryError::InvalidChannel(value) => format!("3 {value:02X}"),
    }
}

/// The number of a time is private: it is read back from the text.
fn time_bytes(time: Timestamp) -> [u8; 4] {
    match time.to_string().as_str() {
        "Unknown" => 0u32,
        number => number.parse().unwrap(),
    }
    .to_le_bytes()
}

fn generator_bytes(generator: EventGenerator) -> [u8; 4] {
    match generator {
        EventGenerator::RqSAAndLun { i2c_addr, channel_number, lun } => {
            [0, i2c_addr, channel_number.value(), lun.value()]
        }
        EventGenerator::SoftwareId { software_id, channel_number } => [1, software_id, channel_number.value(), 0],
    }
}

fn revision_bytes(revision: EventMessageRevision) -> [u8; 2] {
    match revision {
        EventMessageRevision::V2_0 => [0, 0x04],
        EventMessageRevision::V1_0 => [1, 0x03],
        EventMessageRevision::Unknown(value) => [2, value],
    }
}

fn direction_byte(direction: EventDirection) -> u8 {
    match direction {
        EventDirection::Assert => 0,
        EventDirection::Deassert => 1,
    }
}

fn entry_bytes(entry: &Entry) -> Vec<u8> {
    let mut flat = Vec::new();
    match entry {
        Entry::System {
            record_id,
            timestamp,
            generator_id,
            event_message_format,
            sensor_type,
            sensor_number,
            event_direction,
            event_type,
            event_data,
            ..
        } => {
            flat.push(0);
            flat.extend(record_id.value().to_le_bytes());
            flat.extend(time_bytes(*timestamp));
            flat.extend(generator_bytes(*generator_id));
            flat.extend(revision_bytes(*event_message_format));
            flat.extend([*sensor_type, *sensor_number, direction_byte(*event_direction), *event_type]);
            flat.extend(data_bytes(event_data));
        }
        Entry::OemTimestamped { record_id, ty, timestamp, manufacturer_id, data } => {
            flat.push(1);
            flat.extend(record_id.value().to_le_bytes());
            flat.push(*ty);
            flat.extend(time_bytes(*timestamp));
            flat.extend(manufacturer_id.to_le_bytes());
            flat.extend(data);
        }
        Entry::OemNotTimestamped { record_id, ty, data } => {
            flat.push(2);
            flat.extend(record_id.value().to_le_bytes());
            flat.push(*ty);
            flat.extend(data);
        }
    }
    flat
}

pub fn entry(record: &[u8]) -> String {
    match Entry::parse(record) {
        Ok(entry) => accepted(&hex(&entry_bytes(&entry))),
        Err(why) => refused(why),
    }
}

/// The original writes a text to a formatter, which only `Display` has.
struct EntryText(Entry);

impl fmt::Display for EntryText {
    fn fmt(&self, f: &mut fmt::Formatter<'_>) -> fmt::Result {
        self.0.event_description(f)
    }
}

pub fn entry_text(record: &[u8]) -> String {
    match Entry::parse(record) {
        Ok(entry) => accepted(&EntryText(entry).to_string()),
        Err(why) => refused(why),
    }
}

/// Two records, end to end: the original's own `==` on their entries. The first that is refused answers.
pub fn same(records: [u8; 32]) -> String {
    let (first, second) = records.split_at(16);
    match (Entry::parse(first), Entry::parse(second)) {
        (Err(why), _) | (Ok(_), Err(why)) => refused(why),
        (Ok(first), Ok(second)) => accepted(if first == second { "01" } else { "00" }),
    }
}

pub fn get_entry(answer: &[u8]) -> String {
    match GetSelEntry::parse_success_response(answer) {
        Ok(info) => {
            let mut flat = info.next_entry.value().to_le_bytes().to_vec();
            flat.extend(entry_bytes(&info.entry));
            accepted(&hex(&flat))
        }
        Err(why) => refused(why),
    }
}

pub fn info(answer: &[u8]) -> String {
    let Ok(info) = GetSelInfo::parse_success_response(answer) else {
        return NOT_ENOUGH_DATA.into();
    };
    let bit = |command: &SelCommand| match command {
        SelCommand::Delete => 8,
        SelCommand::PartialAddEntry => 4,
        SelCommand::Reserve => 2,
        SelCommand::GetAllocInfo => 1,
    };
    let bits: Vec<u8> = info.supported_cmds.iter().map(bit).collect();
    assert!(bits.windows(2).all(|pair| pair[0] > pair[1]), "the commands are listed from the highest bit down");
    let mask: u8 = bits.iter().sum();
    let mut flat = vec![info.version_maj, info.version_min];
    flat.extend(info.entries.to_le_bytes());
    flat.extend(info.bytes_free.to_le_bytes());
    flat.extend(time_bytes(info.last_add_time));
    flat.extend(time_bytes(info.last_del_time));
    flat.extend([info.overflow.into(), mask, info.supported_cmds.len() as u8]);
    accepted(&hex(&flat))
}

pub fn allocation(answer: &[u8]) -> String {
    let Ok(info) = SelGetAllocInfo::parse_success_response(answer) else {
        return NOT_ENOUGH_DATA.into();
    };
    let or_zero = |number: Option<NonZeroU16>| number.map_or(0, NonZeroU16::get);
    let numbers = [
        or_zero(info.num_alloc_units),
        or_zero(info.alloc_unit_size),
        info.num_free_units,
        info.largest_free_blk,
    ];
    let mut flat = numbers.map(u16::to_le_bytes).concat();
    flat.push(info.max_record_size);
    accepted(&hex(&flat))
}

pub fn reserve(answer: &[u8]) -> String {
    match ReserveSel::parse_success_response(answer) {
        Ok(reservation) => accepted(&hex(&reservation.get().to_le_bytes())),
        Err(_) => NOT_ENOUGH_DATA.into(),
    }
}

pub fn clear(answer: &[u8]) -> String {
    match ClearSel::parse_success_response(answer) {
        Ok(ErasureProgress::Completed) => accepted("01"),
        Ok(ErasureProgress::InProgress) => accepted("00"),
        Err(_) => NOT_ENOUGH_DATA.into(),
    }
}

/// Offset, then kind and value of each byte; 00 00 where it is unspecified.
fn data_bytes(data: &EventData) -> [u8; 5] {
    let (kind2, value2) = match data.data2_type {
        EventData2Type::Unspecified => (0, 0),
        EventData2Type::TriggerReading(value) => (1, value.get()),
        EventData2Type::OemCode(value) => (2, value.get()),
        EventData2Type::SensorSpecific(value) => (3, value.get()),
    };
    let (kind3, value3) = match data.data3_type {
        EventData3Type::Unspecified => (0, 0),
        EventData3Type::TriggerThreshold(value) => (1, value.get()),
        EventData3Type::OemCode(value) => (2, value.get()),
        EventData3Type::SensorSpecific(value) => (3, value.get()),
    };
    [data.offset, kind2, value2, kind3, value3]
}

pub fn event_data(data: [u8; 3]) -> String {
    accepted(&hex(&data_bytes(&EventData::parse(&data))))
}

pub fn event_data_text(data: [u8; 3]) -> String {
    accepted(&EventData::parse(&data).to_string())
}

/// As `EntryText`, of an event alone.
struct Event {
    event_type: u8,
    sensor_type: u8,
    offset: u8,
}

impl fmt::Display for Event {
    fn fmt(&self, f: &mut fmt::Formatter<'_>) -> fmt::Result {
        decode_event(f, self.event_type, SensorType::from(self.sensor_type), self.offset)
    }
}

pub fn event_text([event_type, sensor_type, offset]: [u8; 3]) -> String {
    accepted(&Event { event_type, sensor_type, offset }.to_string())
}

pub fn time_text(time: [u8; 4]) -> String {
    accepted(&Timestamp::from(u32::from_le_bytes(time)).to_string())
}

/// An id as it stands in a message. `new` turns two away, which have names.
pub fn any_id(id: u16) -> RecordId {
    match id {
        0x0000 => RecordId::FIRST,
        0xFFFF => RecordId::LAST,
        _ => RecordId::new(id).unwrap(),
    }
}

pub fn record_id(id: [u8; 2]) -> String {
    let number = u16::from_le_bytes(id);
    let id = any_id(number);
    let [low, high] = id.value().to_le_bytes();
    let tests = [RecordId::new(number).is_some(), id.is_first(), id.is_last()].map(u8::from);
    accepted(&hex(&[tests[0], tests[1], tests[2], low, high]))
}

/// The payload of a request; `None` where it is none of the five.
pub fn request(question: &[u8]) -> Option<String> {
    let word = |low: u8, high: u8| u16::from_le_bytes([low, high]);
    let message: Message = match *question {
        [0x40] => GetSelInfo.into(),
        [0x41] => SelGetAllocInfo.into(),
        [0x42] => ReserveSel.into(),
        [0x47, low, high, 0xAA] => ClearSel::initiate(NonZeroU16::new(word(low, high))).into(),
        [0x47, low, high, 0x00] => ClearSel::get_status(NonZeroU16::new(word(low, high))).into(),
        [0x43, low, high, id_low, id_high] => {
            GetSelEntry::new(NonZeroU16::new(word(low, high)), any_id(word(id_low, id_high))).into()
        }
        _ => return None,
    };
    Some(accepted(&hex(message.data())))
}
