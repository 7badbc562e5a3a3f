//! Records and their ids. After src/storage/sel/mod.rs of ipmi-rs-core 0.6.0, changed: the library reads the bytes, and
//! writes them.

use std::fmt;

use super::sdr::{decode_event, EventData, SensorType};
use super::Timestamp;
use crate::connection::{Channel, LogicalUnit, Version};
use crate::ffi;
use crate::flat::{Fields, Flat};
use crate::{NoSuchRecord, Refusal};

mod clear;
mod get_alloc_info;
mod get_entry;
mod get_info;
mod kept;
mod reserve;

pub use clear::{ClearSel, ClearSelAction, ErasureProgress};
pub use get_alloc_info::{AllocInfo as SelAllocInfo, GetAllocInfo as SelGetAllocInfo};
pub use get_entry::{EntryInfo as SelEntryInfo, GetEntry as GetSelEntry};
pub use get_info::{Command as SelCommand, GetInfo as GetSelInfo, Info as SelInfo};
pub use kept::Kept;
pub use reserve::ReserveSel;

/// The id of a record.
#[derive(Debug, Clone, Copy, PartialEq)]
pub struct RecordId(u16);

impl RecordId {
    /// Asks for the first record.
    pub const FIRST: Self = Self(0x0000);
    /// Asks for the last record, and closes a log.
    pub const LAST: Self = Self(0xFFFF);

    /// `None` for the two ids that have a name.
    pub fn new(id: u16) -> Option<Self> {
        let [is_id, _, _] = Self(id).tests();
        is_id.then_some(Self(id))
    }

    /// An id as it stands in a message, which may be any.
    pub(crate) fn new_raw(id: u16) -> Self {
        Self(id)
    }

    pub fn value(&self) -> u16 {
        self.0
    }

    pub fn is_first(&self) -> bool {
        let [_, is_first, _] = self.tests();
        is_first
    }

    pub fn is_last(&self) -> bool {
        let [_, _, is_last] = self.tests();
        is_last
    }

    /// Whether it is an id that `new` gives, the first, the last.
    fn tests(self) -> [bool; 3] {
        match Flat::decode(b'n', &self.0.to_le_bytes()) {
            Ok(mut flat) => [flat.yes(), flat.yes(), flat.yes()],
            // Two bytes are never refused.
            Err(_) => [false; 3],
        }
    }
}

const SYSTEM: u8 = 0x02;

/// A system record that holds nothing but the given bytes, so that the library reads them as it reads those of any record.
fn record_with<const N: usize>(places: [usize; N], bytes: [u8; N]) -> [u8; 16] {
    let mut record = [0; 16];
    record[2] = SYSTEM;
    for (place, byte) in places.into_iter().zip(bytes) {
        record[place] = byte;
    }
    record
}

/// Who made the event: a module on the bus, or software.
#[derive(Debug, Clone, Copy, PartialEq)]
pub enum EventGenerator {
    RqSAAndLun { i2c_addr: u8, channel_number: Channel, lun: LogicalUnit },
    SoftwareId { software_id: u8, channel_number: Channel },
}

impl EventGenerator {
    #[inline]
    fn decoded(flat: &mut Flat) -> Self {
        let by_software = flat.yes();
        let id = flat.byte();
        let channel_number = Channel::decoded(flat.byte());
        let lun = LogicalUnit::decoded(flat.byte());
        if by_software {
            Self::SoftwareId { software_id: id, channel_number }
        } else {
            Self::RqSAAndLun { i2c_addr: id, channel_number, lun }
        }
    }

    /// As `decoded` takes it.
    fn flat(&self) -> [u8; 4] {
        match self {
            Self::RqSAAndLun { i2c_addr, channel_number, lun } => [0, *i2c_addr, channel_number.value(), lun.value()],
            Self::SoftwareId { software_id, channel_number } => [1, *software_id, channel_number.value(), 0],
        }
    }
}

impl TryFrom<(u8, u8)> for EventGenerator {
    type Error = ParseEntryError;

    fn try_from((first, second): (u8, u8)) -> Result<Self, Self::Error> {
        match Entry::parse(&record_with([7, 8], [first, second]))? {
            Entry::System { generator_id, .. } => Ok(generator_id),
            // The record is a system one.
            _ => Err(ParseEntryError::NotEnoughData),
        }
    }
}

/// The revision of the event's message.
#[derive(Debug, Clone, Copy, PartialEq)]
pub enum EventMessageRevision {
    V2_0,
    V1_0,
    Unknown(u8),
}

impl EventMessageRevision {
    #[inline]
    fn decoded([kind, value]: [u8; 2]) -> Self {
        match kind {
            0 => Self::V2_0,
            1 => Self::V1_0,
            _ => Self::Unknown(value),
        }
    }

    /// As `decoded` takes it.
    fn flat(&self) -> [u8; 2] {
        match self {
            Self::V2_0 => [0, 0x04],
            Self::V1_0 => [1, 0x03],
            Self::Unknown(value) => [2, *value],
        }
    }
}

impl From<u8> for EventMessageRevision {
    fn from(value: u8) -> Self {
        match Entry::parse(&record_with([9], [value])) {
            Ok(Entry::System { event_message_format, .. }) => event_message_format,
            // The record is a system one, of channel 0.
            _ => Self::Unknown(value),
        }
    }
}

#[derive(Debug, Clone, Copy, PartialEq)]
pub enum EventDirection {
    Assert,
    Deassert,
}

/// A record of the log. `==` and `{:?}` are the original's: they go by the decoded fields alone, without `kept`.
#[derive(Clone, PartialEq)]
pub enum Entry {
    System {
        record_id: RecordId,
        timestamp: Timestamp,
        generator_id: EventGenerator,
        event_message_format: EventMessageRevision,
        sensor_type: u8,
        sensor_number: u8,
        event_direction: EventDirection,
        event_type: u8,
        event_data: EventData,
        /// The bytes of generator and event data as they came, or [`Kept::FROM_FIELDS`]. Not in ipmi-rs-core.
        kept: Kept,
    },
    OemTimestamped {
        record_id: RecordId,
        ty: u8,
        timestamp: Timestamp,
        manufacturer_id: u32,
        data: [u8; 6],
    },
    OemNotTimestamped {
        record_id: RecordId,
        ty: u8,
        data: [u8; 13],
    },
}

impl fmt::Debug for Entry {
    fn fmt(&self, f: &mut fmt::Formatter<'_>) -> fmt::Result {
        match self {
            Self::System {
                record_id,
                timestamp,
                generator_id,
                event_message_format,
                sensor_type,
                sensor_number,
                event_direction,
                event_type,
                event_data,
                kept: _,
            } => f
                .debug_struct("System")
                .field("record_id", record_id)
                .field("timestamp", timestamp)
                .field("generator_id", generator_id)
                .field("event_message_format", event_message_format)
                .field("sensor_type", sensor_type)
                .field("sensor_number", sensor_number)
                .field("event_direction", event_direction)
                .field("event_type", event_type)
                .field("event_data", event_data)
                .finish(),
            Self::OemTimestamped { record_id, ty, timestamp, manufacturer_id, data } => f
                .debug_struct("OemTimestamped")
                .field("record_id", record_id)
                .field("ty", ty)
                .field("timestamp", timestamp)
                .field("manufacturer_id", manufacturer_id)
                .field("data", data)
                .finish(),
            Self::OemNotTimestamped { record_id, ty, data } => {
                f.debug_struct("OemNotTimestamped").field("record_id", record_id).field("ty", ty).field("data", data).finish()
            }
        }
    }
}

/// Why a record is refused. Length is tested first, then the type, then the channel.
#[derive(Debug, Clone, Copy, PartialEq)]
pub enum ParseEntryError {
    NotEnoughData,
    UnknownRecordType(u8),
    InvalidChannel(u8),
}

impl Entry {
    /// Writes the text of the record's event; of an OEM record nothing.
    pub fn event_description(&self, f: &mut fmt::Formatter<'_>) -> fmt::Result {
        match self {
            Self::System { event_type, sensor_type, event_data, .. } => {
                decode_event(f, *event_type, SensorType::from(*sensor_type), event_data.offset)
            }
            _ => Ok(()),
        }
    }

    /// Of sixteen bytes; what follows them is not looked at.
    pub fn parse(data: &[u8]) -> Result<Self, ParseEntryError> {
        Ok(Self::decoded(&mut Flat::decode(b'e', data)?, data))
    }

    /// As [`parse`](Self::parse), which is the 2.0 case, by the channels of a version: under 1.5 a system record on channel 8h to Bh is refused, too.
    /// A refusal is told as finely as the library tells it; the error of `parse` is `From` it. Not in ipmi-rs-core.
    pub fn parse_in(version: Version, data: &[u8]) -> Result<Self, Refusal> {
        let mut flat = Flat::written(|out| ffi::entry_of(version.number(), data, out)).map_err(Refusal::told)?;
        Ok(Self::decoded(&mut flat, data))
    }

    /// The sixteen bytes of a record that [`parse`](Self::parse) reads as this entry, with the bytes that it keeps. What
    /// was parsed comes back as it was. The error where there is no such record: also where the generator or the event
    /// data was changed, so that it does not follow from the kept bytes any more, until the entry is
    /// [`remade`](Self::remade). Not in ipmi-rs-core.
    pub fn to_bytes(&self) -> Result<[u8; 16], NoSuchRecord> {
        let (fields, mut record) = (self.fields(), [0; 16]);
        let answer = match self.kept().bytes() {
            Some(kept) => ffi::write_kept(&kept, fields.bytes(), &mut record),
            None => ffi::write_entry(fields.bytes(), &mut record),
        };
        if answer.number == 0 {
            Ok(record)
        } else {
            Err(answer.into())
        }
    }

    /// The same fields, and no kept bytes: the library makes them from the fields. For an entry that was parsed, and of
    /// which the generator or the event data was changed. Not in ipmi-rs-core.
    pub fn remade(mut self) -> Self {
        if let Self::System { kept, .. } = &mut self {
            *kept = Kept::FROM_FIELDS;
        }
        self
    }

    /// The fields of an OEM record hold every byte of it.
    fn kept(&self) -> Kept {
        match self {
            Self::System { kept, .. } => *kept,
            _ => Kept::FROM_FIELDS,
        }
    }

    /// As `decoded` takes them.
    fn fields(&self) -> Fields {
        match self {
            Self::System {
                record_id,
                timestamp,
                generator_id,
                event_message_format,
                sensor_type,
                sensor_number,
                event_direction,
                event_type,
                event_data,
                kept: _,
            } => Fields::new()
                .put([0])
                .put(record_id.0.to_le_bytes())
                .put(timestamp.0.to_le_bytes())
                .put(generator_id.flat())
                .put(event_message_format.flat())
                .put([*sensor_type, *sensor_number])
                .put([u8::from(*event_direction == EventDirection::Deassert), *event_type])
                .put(event_data.flat()),
            Self::OemTimestamped { record_id, ty, timestamp, manufacturer_id, data } => Fields::new()
                .put([1])
                .put(record_id.0.to_le_bytes())
                .put([*ty])
                .put(timestamp.0.to_le_bytes())
                .put(manufacturer_id.to_le_bytes())
                .put(*data),
            Self::OemNotTimestamped { record_id, ty, data } => Fields::new().put([2]).put(record_id.0.to_le_bytes()).put([*ty]).put(*data),
        }
    }

    // In each of its four callers: called by them, it takes some 80 instructions more a record.
    #[inline(always)]
    fn decoded(flat: &mut Flat, record: &[u8]) -> Self {
        let kind = flat.byte();
        let record_id = RecordId(flat.u16());
        match kind {
            0 => Self::System {
                record_id,
                timestamp: Timestamp(flat.u32()),
                generator_id: EventGenerator::decoded(flat),
                event_message_format: EventMessageRevision::decoded(flat.bytes()),
                sensor_type: flat.byte(),
                sensor_number: flat.byte(),
                event_direction: if flat.yes() { EventDirection::Deassert } else { EventDirection::Assert },
                event_type: flat.byte(),
                event_data: EventData::decoded(flat),
                kept: Kept::of(record),
            },
            1 => Self::OemTimestamped {
                record_id,
                ty: flat.byte(),
                timestamp: Timestamp(flat.u32()),
                manufacturer_id: flat.u32(),
                data: flat.bytes(),
            },
            _ => Self::OemNotTimestamped { record_id, ty: flat.byte(), data: flat.bytes() },
        }
    }
}
