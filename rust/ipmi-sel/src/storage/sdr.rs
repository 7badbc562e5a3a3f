//! Event data and event texts. After src/storage/sdr/event_data.rs and event_offset.rs of ipmi-rs-core 0.6.0, changed: the library reads the
//! bytes and writes the texts.

use std::fmt;

use crate::ffi;
use crate::flat::Flat;
use crate::nonmax::NonMaxU8;
use crate::text;

// All else of the module is the original's; a name that is declared below hides its namesake.
#[cfg(feature = "ipmi-rs-core")]
pub use ipmi_rs_core::storage::sdr::*;

/// The code of a sensor type. Those that have event texts of their own have a name, which can be matched as the original's case can.
#[derive(Copy, Clone, Debug, PartialEq, Eq)]
pub struct SensorType(u8);

#[allow(non_upper_case_globals)]
impl SensorType {
    pub const ChassisIntrusion: Self = Self(0x05);
    pub const PlatformSecurityViolationAttempt: Self = Self(0x06);
    pub const Processor: Self = Self(0x07);
    pub const PowerSupply: Self = Self(0x08);
    pub const PowerUnit: Self = Self(0x09);
    pub const Memory: Self = Self(0x0C);
    pub const DriveSlotBay: Self = Self(0x0D);
    pub const SystemFirmwareProgress: Self = Self(0x0F);
    pub const EventLoggingDisabled: Self = Self(0x10);
    pub const Watchdog1: Self = Self(0x11);
    pub const SystemEvent: Self = Self(0x12);
    pub const CriticalInterrupt: Self = Self(0x13);
    pub const ButtonOrSwitch: Self = Self(0x14);
    pub const ChipSet: Self = Self(0x19);
    pub const SystemBootOrRestartInitiated: Self = Self(0x1D);
    pub const BootError: Self = Self(0x1E);
    pub const BaseOsBootOrInstallationStatus: Self = Self(0x1F);
    pub const OsStopOrShutdown: Self = Self(0x20);
    pub const SystemACPIPowerState: Self = Self(0x22);
    pub const Watchdog2: Self = Self(0x23);
    pub const PlatformAlert: Self = Self(0x24);
    pub const EntityPresence: Self = Self(0x25);
    pub const LAN: Self = Self(0x27);
    pub const ManagementSubSysHealth: Self = Self(0x28);
    pub const Battery: Self = Self(0x29);
    pub const SessionAudit: Self = Self(0x2A);
    pub const VersionChange: Self = Self(0x2B);
    pub const FRUState: Self = Self(0x2C);
}

impl From<u8> for SensorType {
    fn from(code: u8) -> Self {
        Self(code)
    }
}

/// Writes the text of an event; of an event that has none, nothing.
pub fn decode_event(f: &mut fmt::Formatter<'_>, event_type: u8, sensor_type: SensorType, offset: u8) -> fmt::Result {
    text::event(f, [event_type, sensor_type.0, offset])
}

/// What byte 2 of the event data is.
#[derive(Debug, Clone, Copy, PartialEq)]
pub enum EventData2Type {
    Unspecified,
    TriggerReading(NonMaxU8),
    OemCode(NonMaxU8),
    SensorSpecific(NonMaxU8),
}

/// What byte 3 of the event data is.
#[derive(Debug, Clone, Copy, PartialEq)]
pub enum EventData3Type {
    Unspecified,
    TriggerThreshold(NonMaxU8),
    OemCode(NonMaxU8),
    SensorSpecific(NonMaxU8),
}

/// Kind and value of an unspecified byte, as a record can have them.
const NO_DATA: (u8, u8) = (0, u8::MAX);

// Both bytes are taken from the flat form and put back alike.
macro_rules! data_byte {
    ($byte:ident, $first:ident) => {
        impl $byte {
            /// Whether the byte carries no useful data.
            pub fn is_unspecified(&self) -> bool {
                matches!(self, Self::Unspecified)
            }

            fn decoded([kind, value]: [u8; 2]) -> Self {
                match (kind, NonMaxU8::new(value)) {
                    (1, Some(value)) => Self::$first(value),
                    (2, Some(value)) => Self::OemCode(value),
                    (3, Some(value)) => Self::SensorSpecific(value),
                    _ => Self::Unspecified,
                }
            }

            fn parts(self) -> (u8, u8) {
                match self {
                    Self::Unspecified => NO_DATA,
                    Self::$first(value) => (1, value.get()),
                    Self::OemCode(value) => (2, value.get()),
                    Self::SensorSpecific(value) => (3, value.get()),
                }
            }

            /// As the flat form has it, in which an unspecified byte is all 0.
            fn flat(self) -> [u8; 2] {
                match self.parts() {
                    NO_DATA => [0, 0],
                    (kind, value) => [kind, value],
                }
            }
        }
    };
}

data_byte!(EventData2Type, TriggerReading);
data_byte!(EventData3Type, TriggerThreshold);

/// The text of the two bytes, put back as a record has them.
fn data_text(f: &mut fmt::Formatter<'_>, (kind2, value2): (u8, u8), (kind3, value3): (u8, u8)) -> fmt::Result {
    text::data(f, [kind2 << 6 | kind3 << 4, value2, value3])
}

impl fmt::Display for EventData2Type {
    fn fmt(&self, f: &mut fmt::Formatter<'_>) -> fmt::Result {
        data_text(f, self.parts(), NO_DATA)
    }
}

impl fmt::Display for EventData3Type {
    fn fmt(&self, f: &mut fmt::Formatter<'_>) -> fmt::Result {
        data_text(f, NO_DATA, self.parts())
    }
}

/// The three bytes of event data, by their kinds alone, as the original reads them: a discrete sensor's previous state is a reading here. For people,
/// [`by_type`](Self::by_type) is the better one.
#[derive(Debug, Clone, PartialEq)]
pub struct EventData {
    pub offset: u8,
    pub data2_type: EventData2Type,
    pub data3_type: EventData3Type,
}

impl EventData {
    pub fn parse(data: &[u8; 3]) -> Self {
        match Flat::decode(b'd', data) {
            Ok(mut flat) => Self::decoded(&mut flat),
            // Three bytes are never refused.
            Err(_) => Self { offset: 0, data2_type: EventData2Type::Unspecified, data3_type: EventData3Type::Unspecified },
        }
    }

    /// What the bytes are under the entry's event type, as [`TypedData::parse`] has them, but that a reserved kind with a value of FFh is unspecified: no
    /// field holds the kind of such a byte. Not in ipmi-rs-core.
    pub fn by_type(&self, event_type: u8) -> TypedData {
        TypedData { offset: self.offset, ..TypedData::parse(event_type, &self.bytes()) }
    }

    /// Their text under the entry's event type, as [`TypedData::text`] has it. Not in ipmi-rs-core.
    pub fn text_by_type(&self, event_type: u8) -> TypedText {
        TypedData::text(event_type, &self.bytes())
    }

    /// The bytes put back as a record has them, but for the offset.
    fn bytes(&self) -> [u8; 3] {
        let ((kind2, value2), (kind3, value3)) = (self.data2_type.parts(), self.data3_type.parts());
        [kind2 << 6 | kind3 << 4, value2, value3]
    }

    /// As `decoded` takes it.
    pub(crate) fn flat(&self) -> [u8; 5] {
        let ([kind2, value2], [kind3, value3]) = (self.data2_type.flat(), self.data3_type.flat());
        [self.offset, kind2, value2, kind3, value3]
    }

    #[inline]
    pub(crate) fn decoded(flat: &mut Flat) -> Self {
        Self { offset: flat.byte(), data2_type: EventData2Type::decoded(flat.bytes()), data3_type: EventData3Type::decoded(flat.bytes()) }
    }
}

impl fmt::Display for EventData {
    fn fmt(&self, f: &mut fmt::Formatter<'_>) -> fmt::Result {
        text::data(f, self.bytes())
    }
}

/// What byte 14 of a record is, by the event type. Not in ipmi-rs-core.
#[derive(Debug, Clone, Copy, PartialEq)]
pub enum TypedData2 {
    Unspecified,
    TriggerReading(NonMaxU8),
    /// Bits 3 to 0 are the offset of the previous state, bits 7 to 4 that of the severity, each Fh where it is not given.
    PreviousState(NonMaxU8),
    OemCode(NonMaxU8),
    SensorSpecific(NonMaxU8),
    /// With any value, FFh too.
    Reserved,
}

/// What byte 15 of a record is, by the event type. Not in ipmi-rs-core.
#[derive(Debug, Clone, Copy, PartialEq)]
pub enum TypedData3 {
    Unspecified,
    TriggerThreshold(NonMaxU8),
    OemCode(NonMaxU8),
    SensorSpecific(NonMaxU8),
    /// With any value, FFh too.
    Reserved,
}

/// The three bytes of event data by the event type (IPMI 2.0, table 29-6). Not in ipmi-rs-core.
#[derive(Debug, Clone, Copy, PartialEq)]
pub struct TypedData {
    pub offset: u8,
    pub data2: TypedData2,
    pub data3: TypedData3,
}

impl TypedData {
    /// Bytes 13 to 15 of a record. Of the event type bit 7 does not count, so its byte 12 will do.
    pub fn parse(event_type: u8, data: &[u8; 3]) -> Self {
        let read = ffi::typed_data(event_type, *data);
        let data2 = match (read.kind2, NonMaxU8::new(read.value2)) {
            (1, Some(value)) => TypedData2::TriggerReading(value),
            (2, Some(value)) => TypedData2::OemCode(value),
            (3, Some(value)) => TypedData2::SensorSpecific(value),
            (4, Some(value)) => TypedData2::PreviousState(value),
            (5, _) => TypedData2::Reserved,
            _ => TypedData2::Unspecified,
        };
        let data3 = match (read.kind3, NonMaxU8::new(read.value3)) {
            (1, Some(value)) => TypedData3::TriggerThreshold(value),
            (2, Some(value)) => TypedData3::OemCode(value),
            (3, Some(value)) => TypedData3::SensorSpecific(value),
            (5, _) => TypedData3::Reserved,
            _ => TypedData3::Unspecified,
        };
        Self { offset: read.offset, data2, data3 }
    }

    /// The text of these bytes that `seldump` prints, `prev=0x12` for a previous state and nothing for what is reserved.
    pub fn text(event_type: u8, data: &[u8; 3]) -> TypedText {
        TypedText { event_type, data: *data }
    }
}

/// The text of event data by the event type, to be formatted with `{}`.
#[derive(Debug, Clone, Copy, PartialEq)]
pub struct TypedText {
    event_type: u8,
    data: [u8; 3],
}

impl fmt::Display for TypedText {
    fn fmt(&self, f: &mut fmt::Formatter<'_>) -> fmt::Result {
        text::typed_data(f, self.event_type, self.data)
    }
}
