// A program as it is written for ipmi-rs-core: it reads a log through a session, and shows what bytes decode to.

use std::fmt::{self, Debug, Write};
use std::num::{NonZeroU16, NonZeroU8};

use ipmi_rs_core::connection::{Channel, ChannelNumber, IpmiCommand, LogicalUnit, Message, NotEnoughData};
use ipmi_rs_core::storage::sdr::{decode_event, EventData, EventData2Type, EventData3Type, SensorType};
use ipmi_rs_core::storage::sel::{
    ClearSel, ClearSelAction, Entry, ErasureProgress, EventDirection, EventGenerator, EventMessageRevision, GetSelEntry, GetSelInfo,
    ParseEntryError, RecordId, ReserveSel, SelAllocInfo, SelCommand, SelEntryInfo, SelGetAllocInfo, SelInfo,
};
use ipmi_rs_core::storage::{AllocInfo, Timestamp};

use super::Session;

/// Shows a value in both forms of `{:?}`, and that it is its own copy.
fn show<T: Debug + Clone>(out: &mut String, value: T) {
    let copy = value.clone();
    writeln!(out, "{value:?}\n{copy:#?}").unwrap();
}

fn show_text(out: &mut String, value: impl fmt::Display) {
    writeln!(out, "[{value}] [{value:>40}]").unwrap();
}

/// The event's text goes to a formatter, which only `Display` has.
struct EntryText<'a>(&'a Entry);

impl fmt::Display for EntryText<'_> {
    fn fmt(&self, f: &mut fmt::Formatter<'_>) -> fmt::Result {
        self.0.event_description(f)
    }
}

struct Event(u8, SensorType, u8);

impl fmt::Display for Event {
    fn fmt(&self, f: &mut fmt::Formatter<'_>) -> fmt::Result {
        decode_event(f, self.0, self.1, self.2)
    }
}

// ---- a log, read through a session

fn entry_line(entry: &Entry) -> String {
    match entry {
        Entry::System {
            record_id,
            timestamp,
            generator_id,
            event_message_format,
            sensor_type,
            sensor_number,
            event_direction,
            event_data,
            ..
        } => {
            let generator = match generator_id {
                EventGenerator::RqSAAndLun { i2c_addr, channel_number, lun } => format!("{i2c_addr:02X} {channel_number} {}", lun.value()),
                EventGenerator::SoftwareId { software_id, channel_number } => format!("software {software_id:02X} {channel_number}"),
            };
            let revision = match event_message_format {
                EventMessageRevision::V2_0 => "2.0".to_string(),
                EventMessageRevision::V1_0 => "1.0".to_string(),
                EventMessageRevision::Unknown(value) => value.to_string(),
            };
            let direction = match event_direction {
                EventDirection::Assert => "assert",
                EventDirection::Deassert => "deassert",
            };
            let text = EntryText(entry);
            let id = record_id.value();
            format!("{id} {timestamp} {generator} {revision} {sensor_type} {sensor_number} {direction} {text} {event_data}")
        }
        Entry::OemTimestamped { record_id, ty, timestamp, manufacturer_id, data } => {
            format!("{} {ty:02X} {timestamp} {manufacturer_id} {data:02X?}", record_id.value())
        }
        Entry::OemNotTimestamped { record_id, ty, data } => format!("{} {ty:02X} {data:02X?}", record_id.value()),
    }
}

fn refusal(why: ParseEntryError) -> String {
    match why {
        ParseEntryError::NotEnoughData => "not enough data".into(),
        ParseEntryError::UnknownRecordType(record_type) => format!("record type {record_type:02X}"),
        ParseEntryError::InvalidChannel(channel) => format!("channel {channel}"),
    }
}

/// What is asked for in a log's turn, and each answer.
pub fn read_log(session: &mut Session) -> String {
    let mut out = String::new();
    let Ok(info) = session.send_recv(GetSelInfo) else { return "no log".into() };
    let SelInfo { entries, supported_cmds, .. } = &info;
    writeln!(out, "{entries} entries, added {}, {info:?}", info.last_add_time).unwrap();

    let can_reserve = supported_cmds.contains(&SelCommand::Reserve);
    let reservation: Option<NonZeroU16> = if can_reserve { session.send_recv(ReserveSel).ok() } else { None };
    let allocation = session.send_recv(SelGetAllocInfo).map(|info| (info.num_alloc_units, info.max_record_size));
    writeln!(out, "{reservation:?} {allocation:?}").unwrap();

    let mut ask = RecordId::FIRST;
    for _ in 0..=*entries {
        match session.send_recv(GetSelEntry::new(reservation, ask)) {
            Ok(SelEntryInfo { next_entry, entry }) => {
                writeln!(out, "{}", entry_line(&entry)).unwrap();
                ask = next_entry;
            }
            Err(why) => {
                writeln!(out, "{}", refusal(why)).unwrap();
                let Some(next) = session.next_of(ask.value()).and_then(RecordId::new) else { break };
                ask = next;
            }
        }
        if ask.is_last() {
            break;
        }
    }
    let erased = session.send_recv(ClearSel::initiate(reservation)) == Ok(ErasureProgress::Completed);
    writeln!(out, "{erased} {:?}", session.send_recv(ClearSel::get_status(reservation))).unwrap();
    out
}

// ---- whatever bytes decode to

/// As each kind of answer; an allocation answer has a function of its own.
pub fn answers(bytes: &[u8], out: &mut String) {
    let entry = Entry::parse(bytes);
    if let Ok(entry) = &entry {
        show_text(out, EntryText(entry));
        writeln!(out, "{}", entry_line(entry)).unwrap();
    }
    show(out, entry);
    show(out, GetSelEntry::parse_success_response(bytes));
    show(out, GetSelInfo::parse_success_response(bytes));
    show(out, SelInfo::from_data(bytes));
    show(out, ReserveSel::parse_success_response(bytes));
    show(out, ClearSel::parse_success_response(bytes));
}

/// Whether two records are read as equal entries.
pub fn equal(one: &[u8], other: &[u8]) -> Option<bool> {
    Some(Entry::parse(one).ok()? == Entry::parse(other).ok()?)
}

pub fn allocation(bytes: &[u8], out: &mut String) {
    show(out, AllocInfo::parse(bytes));
    show(out, SelAllocInfo::parse(bytes).map(|info| AllocInfo::clone(&info)));
    let mut info = SelGetAllocInfo::parse_success_response(bytes);
    if let Ok(info) = &mut info {
        info.num_free_units = 7;
    }
    show(out, info.map(|info| info.num_free_units));
}

fn message(out: &mut String, command: impl IpmiCommand) {
    let asks = command.target().is_some();
    let message: Message = command.into();
    let (function, number, payload) = (message.netfn_raw(), message.cmd(), message.data());
    writeln!(out, "{asks} {function} {number} {payload:?}").unwrap();
    show(out, message);
}

/// As ids, numbers, event data, texts and requests.
pub fn fields(&[b1, b2, b3, b4]: &[u8; 4], out: &mut String) {
    let id = u16::from_le_bytes([b1, b2]);
    for id in [RecordId::new(id), Some(RecordId::FIRST), Some(RecordId::LAST)].into_iter().flatten() {
        show(out, id);
        writeln!(out, "{} {} {}", id.value(), id.is_first(), id.is_last()).unwrap();

        let get_entry = GetSelEntry::new(NonZeroU16::new(u16::from_le_bytes([b3, b4])), id);
        writeln!(out, "{}", get_entry == GetSelEntry::new(None, id)).unwrap();
        show(out, get_entry.clone());
        message(out, get_entry);
    }
    message(out, ClearSel::initiate(NonZeroU16::new(id)));
    message(out, ClearSel::get_status(NonZeroU16::new(id)));

    show(out, EventGenerator::try_from((b1, b2)));
    show(out, EventMessageRevision::from(b3));
    show(out, LogicalUnit::try_from(b1));
    writeln!(out, "{}", u8::from(LogicalUnit::from_low_bits(b1))).unwrap();
    show(out, NonZeroU8::new(b1).and_then(ChannelNumber::new).map(|number| (number, number.value())));
    let channel = Channel::new(b1);
    show(out, channel);
    if let Some(channel) = channel {
        show_text(out, channel);
        writeln!(out, "{}", channel.value()).unwrap();
    }

    let mut data = EventData::parse(&[b1, b2, b3]);
    writeln!(out, "{} {}", data.data2_type.is_unspecified(), data.data3_type.is_unspecified()).unwrap();
    for _ in 0..2 {
        show_text(out, &data);
        show_text(out, data.data2_type);
        show_text(out, data.data3_type);
        show(out, data.clone());
        // A built value, of which no record says what a bit of it is.
        data.offset = b4;
        data.data2_type = match data.data2_type {
            EventData2Type::TriggerReading(value) | EventData2Type::OemCode(value) => EventData2Type::SensorSpecific(value),
            _ => EventData2Type::Unspecified,
        };
        data.data3_type = match data.data3_type {
            EventData3Type::OemCode(value) | EventData3Type::SensorSpecific(value) => EventData3Type::TriggerThreshold(value),
            _ => EventData3Type::Unspecified,
        };
    }
    show_text(out, Event(b1, SensorType::from(b2), b3));
    for time in [u32::from_le_bytes([b1, b2, b3, b4]), b1.into(), 0] {
        show_text(out, Timestamp::from(time));
        show(out, Timestamp::from(time));
    }
}

pub fn event_text(&[event_type, sensor_type, offset]: &[u8; 3]) -> String {
    Event(event_type, SensorType::from(sensor_type), offset).to_string()
}

/// What no bytes are needed for.
pub fn names(out: &mut String) {
    message(out, GetSelInfo);
    message(out, SelGetAllocInfo);
    message(out, ReserveSel);
    show(out, NotEnoughData);
    show(out, [ClearSelAction::InitiateErase, ClearSelAction::GetStatus]);
    show(out, [ErasureProgress::InProgress, ErasureProgress::Completed]);
    show(out, [SelCommand::Delete, SelCommand::PartialAddEntry, SelCommand::Reserve, SelCommand::GetAllocInfo]);
    show(out, [EventDirection::Assert, EventDirection::Deassert]);
    show(out, [LogicalUnit::Zero, LogicalUnit::One, LogicalUnit::Two, LogicalUnit::Three]);
    for named in [SensorType::Memory, SensorType::Watchdog2, SensorType::FRUState] {
        show_text(out, Event(0x6F, named, 1));
    }
}
