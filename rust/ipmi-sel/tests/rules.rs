//! Answers as docs/SCOPE.md has them. The expected values were written from its rules by hand.

use std::fmt;
use std::num::{NonZeroU16, NonZeroU8};

use ipmi_sel::capture::{
    add_to_index, bytes_that_count, check_index, find, find_indexed, index_of, record_bytes, refusal, refused_length, refused_slots,
    same_entry, walk, walk_indexed, AnswerKind, IndexError, RefusedRecord, Verdict, Walk, WalkError,
};
use ipmi_sel::connection::{Channel, ChannelNumber, LogicalUnit, NotEnoughData, Version};
use ipmi_sel::events::{record_of, Beside, EventError, EventMessage};
use ipmi_sel::nonmax::NonMaxU8;
use ipmi_sel::parts::{reads, GetEntryPart, Joining, Part, PartError};
use ipmi_sel::storage::sdr::{decode_event, EventData, EventData2Type, EventData3Type, SensorType, TypedData, TypedData2, TypedData3};
use ipmi_sel::storage::sel::{
    ClearSel, Entry, ErasureProgress, EventDirection, EventGenerator, EventMessageRevision, GetSelEntry, GetSelInfo, Kept, ParseEntryError,
    RecordId, ReserveSel, SelAllocInfo, SelCommand, SelEntryInfo, SelGetAllocInfo,
};
use ipmi_sel::storage::{AllocInfo, Timestamp};
use ipmi_sel::{NoSuchRecord, Refusal, Request};

/// The record of docs/SCOPE.md's example: id 1, time 1000, address 10h, sensor type 01h, event type 01h, offset 9.
const RECORD: [u8; 16] = [0x01, 0x00, 0x02, 0xE8, 0x03, 0x00, 0x00, 0x20, 0x00, 0x04, 0x01, 0x30, 0x01, 0x59, 0x5A, 0x55];

fn changed<const N: usize>(mut bytes: [u8; N], place: usize, byte: u8) -> [u8; N] {
    bytes[place] = byte;
    bytes
}

fn record_id(id: u16) -> RecordId {
    RecordId::new(id).unwrap()
}

fn value(byte: u8) -> NonMaxU8 {
    NonMaxU8::new(byte).unwrap()
}

fn numbered(number: u8) -> Channel {
    Channel::Numbered(ChannelNumber::new(NonZeroU8::new(number).unwrap()).unwrap())
}

/// What both versions say, where `parse` says this: 2.0 the same, and 1.5 too, but for a system record on a channel that it alone reserves.
fn check_versions<T: PartialEq + fmt::Debug>(told: &Result<T, ParseEntryError>, v1_5: Result<T, Refusal>, v2_0: Result<T, Refusal>) {
    assert_eq!(&v2_0.map_err(ParseEntryError::from), told);
    match v1_5 {
        Err(Refusal::InvalidChannel(0x8..=0xB)) => assert!(told.is_ok()),
        same => assert_eq!(&same.map_err(ParseEntryError::from), told),
    }
}

/// The bytes that an entry keeps.
fn kept(entry: &Entry) -> Option<[u8; 5]> {
    match entry {
        Entry::System { kept, .. } => kept.bytes(),
        _ => None,
    }
}

/// A system entry keeps bytes 7, 8 and 13 to 15 of its record, whichever function has read it.
fn check_kept(data: &[u8], entry: &Entry) {
    let bytes = [7, 8, 13, 14, 15].map(|place| data[place]);
    assert_eq!(kept(entry), (data[2] == 0x02).then_some(bytes));
}

/// An entry is written as the record that it was read from. Remade, it is written as a record of the same entry: an OEM
/// record as it was, a system record with 0 in the bits that no field holds.
fn check_written(entry: &Entry, data: &[u8]) {
    assert_eq!(entry.to_bytes().unwrap(), data[..16]);
    let remade = entry.clone().remade();
    assert_eq!((&remade, kept(&remade)), (entry, None));
    let record = remade.to_bytes().unwrap();
    assert_eq!(Entry::parse(&record).as_ref(), Ok(entry));
    assert_eq!(same_entry(&record, data), Ok(true));
    match entry {
        Entry::System { generator_id: EventGenerator::RqSAAndLun { .. }, .. } => assert_eq!(record[8] & 0b1100, 0),
        Entry::System { generator_id: EventGenerator::SoftwareId { .. }, .. } => assert_eq!(record[8] & 0b1111, 0),
        _ => assert_eq!(record, data[..16]),
    }
}

fn parsed(data: &[u8]) -> Result<Entry, ParseEntryError> {
    let (entry, by_version) = (Entry::parse(data), |version| Entry::parse_in(version, data));
    check_versions(&entry, by_version(Version::V1_5), by_version(Version::V2_0));
    for entry in entry.iter().chain(&by_version(Version::V1_5)).chain(&by_version(Version::V2_0)) {
        check_kept(data, entry);
        check_written(entry, data);
    }
    assert_eq!(get_parsed(&[&[0x34, 0x12], data].concat()).map(|info| info.entry), entry);
    entry
}

fn get_parsed(data: &[u8]) -> Result<SelEntryInfo, ParseEntryError> {
    let by_version = |version| GetSelEntry::parse_success_response_in(version, data);
    let info = GetSelEntry::parse_success_response(data);
    check_versions(&info, by_version(Version::V1_5), by_version(Version::V2_0));
    for info in info.iter().chain(&by_version(Version::V1_5)).chain(&by_version(Version::V2_0)) {
        check_kept(&data[2..], &info.entry);
        check_written(&info.entry, &data[2..]);
    }
    info
}

struct EntryText(Entry);

impl fmt::Display for EntryText {
    fn fmt(&self, f: &mut fmt::Formatter<'_>) -> fmt::Result {
        self.0.event_description(f)
    }
}

struct Event(u8, u8, u8);

impl fmt::Display for Event {
    fn fmt(&self, f: &mut fmt::Formatter<'_>) -> fmt::Result {
        decode_event(f, self.0, SensorType::from(self.1), self.2)
    }
}

#[test]
fn a_system_record() {
    let entry = Entry::System {
        record_id: record_id(1),
        timestamp: Timestamp::from(1000),
        generator_id: EventGenerator::RqSAAndLun { i2c_addr: 0x10, channel_number: Channel::Primary, lun: LogicalUnit::Zero },
        event_message_format: EventMessageRevision::V2_0,
        sensor_type: 0x01,
        sensor_number: 0x30,
        event_direction: EventDirection::Assert,
        event_type: 0x01,
        event_data: EventData {
            offset: 9,
            data2_type: EventData2Type::TriggerReading(value(90)),
            data3_type: EventData3Type::TriggerThreshold(value(85)),
        },
        kept: Kept::FROM_FIELDS,
    };
    assert_eq!(parsed(&RECORD), Ok(entry.clone()));
    assert_eq!(parsed(&[&RECORD[..], &[0xFF; 9]].concat()), Ok(entry.clone()));
    assert_eq!(EntryText(entry).to_string(), "Upper Critical - going high");

    let Ok(Entry::System { event_direction, event_type, .. }) = parsed(&changed(RECORD, 12, 0xEF)) else { panic!() };
    assert_eq!((event_direction, event_type), (EventDirection::Deassert, 0x6F));
}

/// Both by the bytes and by `==`.
fn same(one: &[u8], other: &[u8]) -> bool {
    let entries = parsed(one).unwrap() == parsed(other).unwrap();
    assert_eq!(same_entry(one, other), Ok(entries));
    entries
}

#[test]
fn what_equal_entries_overlook() {
    let by_software = changed(RECORD, 7, 0x21);
    // The list of docs/SCOPE.md, a pair each.
    assert!(same(&RECORD, &changed(RECORD, 8, 0x04)) && same(&RECORD, &changed(RECORD, 8, 0x08)));
    assert!(same(&by_software, &changed(by_software, 8, 0x01)));
    for (place, kind00, kind01) in [(14, 0x19, 0x59), (15, 0x49, 0x59)] {
        let unspecified = changed(RECORD, 13, kind00);
        assert!(same(&changed(unspecified, place, 0x00), &changed(unspecified, place, 0x01)));
        assert!(same(&changed(unspecified, place, 0xFF), &changed(changed(RECORD, 13, kind01), place, 0xFF)));
    }
    assert!(same(&RECORD, &[&RECORD[..], &[0xFF; 9]].concat()));

    assert!(!same(&RECORD, &changed(RECORD, 8, 0x01)), "the unit of an address");
    assert!(!same(&RECORD, &changed(RECORD, 13, 0x58)), "the offset");
    assert!(!same(&RECORD, &changed(RECORD, 13, 0x19)), "unspecified in one alone");
    assert!(!same(&RECORD, &changed(RECORD, 13, 0x99)), "the kind");
    assert!(!same(&RECORD, &changed(RECORD, 2, 0xC0)), "a system record and one that is not");
    let oem = changed(RECORD, 2, 0xDF);
    for place in 0..16 {
        assert!(place == 2 || !same(&oem, &changed(oem, place, 0xA7)), "byte {place} of an OEM record");
    }
    assert!(!same(&oem, &changed(RECORD, 2, 0xE0)), "with a time, and without");
}

#[test]
fn which_of_two_records_is_refused() {
    let (unknown, invalid) = (changed(RECORD, 2, 0x03), changed(RECORD, 8, 0xC0));
    assert_eq!(same_entry(&unknown, &invalid), Err(RefusedRecord::First(Refusal::UnknownRecordType(3))));
    assert_eq!(same_entry(&invalid, &unknown), Err(RefusedRecord::First(Refusal::InvalidChannel(12))));
    assert_eq!(same_entry(&RECORD, &invalid), Err(RefusedRecord::Second(Refusal::InvalidChannel(12))));
    assert_eq!(same_entry(&RECORD[..15], &RECORD), Err(RefusedRecord::First(Refusal::TooShort { needed: 16 })));
    assert_eq!(same_entry(&RECORD, &[]), Err(RefusedRecord::Second(Refusal::TooShort { needed: 16 })));
}

#[test]
fn generators_and_revisions() {
    let by_address = EventGenerator::RqSAAndLun { i2c_addr: 0x10, channel_number: numbered(7), lun: LogicalUnit::Two };
    let by_software = EventGenerator::SoftwareId { software_id: 0x10, channel_number: Channel::System };
    assert_eq!(EventGenerator::try_from((0x20, 0x7E)), Ok(by_address));
    assert_eq!(EventGenerator::try_from((0x21, 0xF3)), Ok(by_software));
    assert_eq!(EventGenerator::try_from((0x21, 0xD0)), Err(ParseEntryError::InvalidChannel(0xD)));

    let revisions = [0x03, 0x04, 0x05].map(EventMessageRevision::from);
    assert_eq!(revisions, [EventMessageRevision::V1_0, EventMessageRevision::V2_0, EventMessageRevision::Unknown(0x05)]);
}

#[test]
fn oem_records() {
    let record = [0x02, 0x00, 0xC0, 0xE8, 0x03, 0x00, 0x00, 0xAB, 0xC0, 0x80, 1, 2, 3, 4, 5, 6];
    let timed = Entry::OemTimestamped {
        record_id: record_id(2),
        ty: 0xC0,
        timestamp: Timestamp::from(1000),
        manufacturer_id: 0x80C0AB,
        data: [1, 2, 3, 4, 5, 6],
    };
    assert_eq!(parsed(&record), Ok(timed.clone()));
    assert_eq!(EntryText(timed).to_string(), "");

    let plain =
        Entry::OemNotTimestamped { record_id: record_id(2), ty: 0xE0, data: [0xE8, 0x03, 0x00, 0x00, 0xAB, 0xC0, 0x80, 1, 2, 3, 4, 5, 6] };
    assert_eq!(parsed(&changed(record, 2, 0xE0)), Ok(plain));
}

#[test]
fn refused_records() {
    assert_eq!(parsed(&RECORD[..15]), Err(ParseEntryError::NotEnoughData));
    assert_eq!(parsed(&changed(RECORD, 2, 0x03)), Err(ParseEntryError::UnknownRecordType(0x03)));
    assert_eq!(parsed(&changed(RECORD, 2, 0xBF)), Err(ParseEntryError::UnknownRecordType(0xBF)));
    assert_eq!(parsed(&changed(RECORD, 8, 0xC0)), Err(ParseEntryError::InvalidChannel(12)));
    // Length first, then type, then channel.
    assert_eq!(parsed(&changed(RECORD, 2, 0x03)[..15]), Err(ParseEntryError::NotEnoughData));
    assert_eq!(parsed(&changed(changed(RECORD, 2, 0x03), 8, 0xC0)), Err(ParseEntryError::UnknownRecordType(0x03)));
}

/// RECORD with other event data.
fn with_data([b1, b2, b3]: [u8; 3]) -> [u8; 16] {
    changed(changed(changed(RECORD, 13, b1), 14, b2), 15, b3)
}

/// A record comes back byte for byte; made again from its fields, with 0 in the bits that no field holds, and 00 and FFh
/// for unspecified event data.
#[test]
fn written_records() {
    let check = |record: [u8; 16], remade: [u8; 16]| {
        let entry = parsed(&record).unwrap();
        assert_eq!((entry.to_bytes(), entry.remade().to_bytes()), (Ok(record), Ok(remade)));
    };
    check(RECORD, RECORD);
    // Bits that no field holds: two behind an address, four behind a software id.
    let by_software = changed(RECORD, 7, 0x21);
    for low in 0x0..=0xF {
        check(changed(RECORD, 8, 0x70 | low), changed(RECORD, 8, 0x70 | low & 0b0011));
        check(changed(by_software, 8, 0x70 | low), changed(by_software, 8, 0x70));
    }
    for revision in [0x03, 0x05] {
        check(changed(RECORD, 9, revision), changed(RECORD, 9, revision));
    }
    // Unspecified event data, by kind or by value.
    for (data, remade) in [
        ([0xC0, 0xFF, 0x12], [0x00, 0xFF, 0xFF]),
        ([0x05, 0x12, 0x34], [0x05, 0xFF, 0xFF]),
        ([0x15, 0x34, 0x12], [0x15, 0xFF, 0x12]),
        ([0xF5, 0xFE, 0xFF], [0xC5, 0xFE, 0xFF]),
        ([0x5A, 0xFF, 0xFF], [0x0A, 0xFF, 0xFF]),
        ([0x95, 0xFF, 0x00], [0x15, 0xFF, 0x00]),
        ([0xF5, 0x00, 0x00], [0xF5, 0x00, 0x00]),
    ] {
        check(with_data(data), with_data(remade));
    }
    for ty in [0xC0, 0xDF, 0xE0, 0xFF] {
        for bytes in [[0xFF; 16], [0x00; 16]] {
            check(changed(bytes, 2, ty), changed(bytes, 2, ty));
        }
    }

    let greatest = Entry::System {
        record_id: RecordId::LAST,
        timestamp: Timestamp::from(u32::MAX),
        generator_id: EventGenerator::RqSAAndLun { i2c_addr: 0x7F, channel_number: Channel::System, lun: LogicalUnit::Three },
        event_message_format: EventMessageRevision::Unknown(0xFF),
        sensor_type: 0xFF,
        sensor_number: 0xFF,
        event_direction: EventDirection::Deassert,
        event_type: 0x7F,
        event_data: EventData {
            offset: 15,
            data2_type: EventData2Type::SensorSpecific(value(0xFE)),
            data3_type: EventData3Type::SensorSpecific(value(0xFE)),
        },
        kept: Kept::default(),
    };
    let record = [0xFF, 0xFF, 0x02, 0xFF, 0xFF, 0xFF, 0xFF, 0xFE, 0xF3, 0xFF, 0xFF, 0xFF, 0xFF, 0xFF, 0xFE, 0xFE];
    assert_eq!(greatest.to_bytes(), Ok(record));
}

/// A system entry with other fields, all else as it was, the kept bytes too.
fn altered(entry: &Entry, generator: Option<EventGenerator>, change: impl FnOnce(&mut EventData)) -> Entry {
    let mut entry = entry.clone();
    let Entry::System { generator_id, event_data, .. } = &mut entry else { panic!() };
    *generator_id = generator.unwrap_or(*generator_id);
    change(event_data);
    entry
}

/// Each field of the generator and of the event data by itself, changed so that it does not follow from the kept bytes.
#[test]
fn kept_bytes_and_fields_that_disagree() {
    use {EventData2Type as Second, EventData3Type as Third};
    let check = |entry: &Entry, generators: &[EventGenerator], data2: &[Second], data3: &[Third]| {
        let refused = |altered: Entry| {
            assert_eq!(altered.to_bytes(), Err(NoSuchRecord), "{altered:?}");
            // It is the kept bytes alone that no record has with these fields.
            let record = altered.clone().remade().to_bytes().unwrap();
            assert_eq!(parsed(&record), Ok(altered));
        };
        generators.iter().for_each(|generator| refused(altered(entry, Some(*generator), |_| ())));
        data2.iter().for_each(|other| refused(altered(entry, None, |data| data.data2_type = *other)));
        data3.iter().for_each(|other| refused(altered(entry, None, |data| data.data3_type = *other)));
        for offset in 0..16 {
            let other = altered(entry, None, |data| data.offset = offset);
            if other != *entry {
                refused(other);
            }
        }
        assert!(entry.to_bytes().is_ok());
    };
    let by_address = |i2c_addr, channel_number, lun| EventGenerator::RqSAAndLun { i2c_addr, channel_number, lun };
    let by_software = |software_id, channel_number| EventGenerator::SoftwareId { software_id, channel_number };
    let (zero, v) = (LogicalUnit::Zero, value);

    // Address 10h, channel 0h, unit 0, a reading of 90 and a threshold of 85; the two bits of no field set, and not.
    for low in [0b0000, 0b1100] {
        check(
            &parsed(&changed(RECORD, 8, low)).unwrap(),
            &[
                by_address(0x11, Channel::Primary, zero),
                by_address(0x50, Channel::Primary, zero),
                by_address(0x10, numbered(8), zero),
                by_address(0x10, Channel::System, zero),
                by_address(0x10, Channel::Primary, LogicalUnit::One),
                by_address(0x10, Channel::Primary, LogicalUnit::Three),
                by_software(0x10, Channel::Primary),
            ],
            &[Second::Unspecified, Second::TriggerReading(v(91)), Second::OemCode(v(90)), Second::SensorSpecific(v(90))],
            &[Third::Unspecified, Third::TriggerThreshold(v(0)), Third::OemCode(v(85)), Third::SensorSpecific(v(85))],
        );
    }
    // Software id 10h on channel Eh, which has no unit; unspecified by kind, and by value.
    let record = changed(changed(with_data([0x35, 0x12, 0xFF]), 7, 0x21), 8, 0xEF);
    check(
        &parsed(&record).unwrap(),
        &[by_software(0x11, Channel::Current), by_software(0x10, Channel::System), by_address(0x10, Channel::Current, LogicalUnit::Three)],
        &[Second::TriggerReading(v(0x12)), Second::OemCode(v(0x12)), Second::SensorSpecific(v(0x12)), Second::TriggerReading(v(0))],
        &[Third::TriggerThreshold(v(0)), Third::OemCode(v(0xFE)), Third::SensorSpecific(v(0)), Third::SensorSpecific(v(0xFE))],
    );
    check(
        &parsed(&with_data([0x05, 0x12, 0x34])).unwrap(),
        &[],
        &[Second::TriggerReading(v(0x12)), Second::SensorSpecific(v(0x12))],
        &[Third::TriggerThreshold(v(0x34)), Third::OemCode(v(0x34))],
    );
}

/// What no kept byte holds can be changed, and is written beside the kept bytes.
#[test]
fn other_fields_beside_the_kept_bytes() {
    let mut entry = parsed(&changed(with_data([0x05, 0x12, 0x34]), 8, 0x0C)).unwrap();
    let Entry::System { record_id, timestamp, event_message_format, sensor_type, sensor_number, event_direction, event_type, .. } =
        &mut entry
    else {
        panic!()
    };
    *record_id = RecordId::LAST;
    *timestamp = Timestamp::from(0x0403_0201);
    *event_message_format = EventMessageRevision::Unknown(0xFF);
    (*sensor_type, *sensor_number) = (0xA1, 0xA2);
    *event_direction = EventDirection::Deassert;
    *event_type = 0x6F;
    let record = [0xFF, 0xFF, 0x02, 0x01, 0x02, 0x03, 0x04, 0x20, 0x0C, 0xFF, 0xA1, 0xA2, 0xEF, 0x05, 0x12, 0x34];
    assert_eq!(entry.to_bytes(), Ok(record));
    assert_eq!(parsed(&record), Ok(entry.clone()));
    // What no record has is refused beside kept bytes as it is without them.
    let Entry::System { event_type, .. } = &mut entry else { panic!() };
    *event_type = 0x80;
    assert_eq!((entry.to_bytes(), entry.clone().remade().to_bytes()), (Err(NoSuchRecord), Err(NoSuchRecord)));
    let Entry::System { event_type, event_message_format, .. } = &mut entry else { panic!() };
    (*event_type, *event_message_format) = (0x6F, EventMessageRevision::Unknown(0x04));
    assert_eq!((entry.to_bytes(), entry.remade().to_bytes()), (Err(NoSuchRecord), Err(NoSuchRecord)));
}

/// Kept bytes that are given by hand: every value of each, beside the fields of RECORD.
#[test]
fn kept_bytes_by_hand() {
    let fields = Entry::parse(&RECORD).unwrap();
    for (place, in_record) in [7, 8, 13, 14, 15].into_iter().enumerate() {
        for byte in 0..=u8::MAX {
            let bytes = changed([0x20, 0x00, 0x59, 0x5A, 0x55], place, byte);
            let mut entry = fields.clone();
            if let Entry::System { kept, .. } = &mut entry {
                *kept = Kept::new(bytes);
            }
            // Bits 3 and 2 of byte 8 are the only ones that no field of it holds.
            let follows = byte == RECORD[in_record] || (in_record == 8 && byte & !0b1100 == 0);
            let record = if follows { Ok(changed(RECORD, in_record, byte)) } else { Err(NoSuchRecord) };
            assert_eq!((entry.to_bytes(), kept(&entry)), (record, Some(bytes)), "{bytes:02X?}");
        }
    }
    assert_eq!((Kept::FROM_FIELDS.bytes(), Kept::default().bytes()), (None, None));
}

/// `==` and `{:?}` of an entry are the original's: the fields alone.
#[test]
fn what_shows_of_kept_bytes() {
    let (one, other) = (parsed(&RECORD).unwrap(), parsed(&changed(RECORD, 8, 0x0C)).unwrap());
    assert_ne!(kept(&one), kept(&other));
    assert!(one == other && one == one.clone().remade());
    assert!(Kept::new([0; 5]) == Kept::new([1; 5]) && Kept::new([0; 5]) == Kept::FROM_FIELDS);
    let text = "System { record_id: RecordId(1), timestamp: Timestamp(1000), \
                generator_id: RqSAAndLun { i2c_addr: 16, channel_number: Primary, lun: Zero }, event_message_format: V2_0, \
                sensor_type: 1, sensor_number: 48, event_direction: Assert, event_type: 1, \
                event_data: EventData { offset: 9, data2_type: TriggerReading(90), data3_type: TriggerThreshold(85) } }";
    assert_eq!((format!("{one:?}"), format!("{other:?}")), (text.to_string(), text.to_string()));
    assert_eq!(format!("{one:#?}"), format!("{:#?}", one.clone().remade()));
    assert!(!format!("{one:#?}").contains("kept"));
    assert_eq!(format!("{:?} {:?}", Kept::new([1, 2, 3, 4, 5]), Kept::FROM_FIELDS), "Kept(Some([1, 2, 3, 4, 5])) Kept(None)");

    let oem = [0x02, 0x00, 0xC0, 0xE8, 0x03, 0x00, 0x00, 0x01, 0x00, 0x00, 1, 2, 3, 4, 5, 6];
    let (timed, plain) = (parsed(&oem).unwrap(), parsed(&changed(oem, 2, 0xE0)).unwrap());
    let text =
        "OemTimestamped { record_id: RecordId(2), ty: 192, timestamp: Timestamp(1000), manufacturer_id: 1, data: [1, 2, 3, 4, 5, 6] }";
    assert_eq!(format!("{timed:?}"), text);
    let text = "OemNotTimestamped { record_id: RecordId(2), ty: 224, data: [232, 3, 0, 0, 1, 0, 0, 1, 2, 3, 4, 5, 6] }";
    assert_eq!(format!("{plain:?}"), text);
}

/// The entry of RECORD, but for these fields.
fn system(generator_id: EventGenerator, event_message_format: EventMessageRevision, event_type: u8, offset: u8) -> Entry {
    Entry::System {
        record_id: record_id(1),
        timestamp: Timestamp::from(1000),
        generator_id,
        event_message_format,
        sensor_type: 0x01,
        sensor_number: 0x30,
        event_direction: EventDirection::Assert,
        event_type,
        event_data: EventData {
            offset,
            data2_type: EventData2Type::TriggerReading(value(90)),
            data3_type: EventData3Type::TriggerThreshold(value(85)),
        },
        kept: Kept::FROM_FIELDS,
    }
}

/// All that the types can hold and no record can: a channel, a unit and a value are always those of one.
#[test]
fn entries_that_no_record_has() {
    let check = |entry: Entry, has_record: bool| match entry.to_bytes() {
        Ok(record) => assert_eq!((Entry::parse(&record), has_record), (Ok(entry), true)),
        Err(NoSuchRecord) => assert!(!has_record, "{entry:?}"),
    };
    let by_address = |i2c_addr| EventGenerator::RqSAAndLun { i2c_addr, channel_number: Channel::Primary, lun: LogicalUnit::Zero };
    let by_software = |software_id| EventGenerator::SoftwareId { software_id, channel_number: Channel::Primary };
    let timed = |ty, manufacturer_id| Entry::OemTimestamped {
        record_id: record_id(1),
        ty,
        timestamp: Timestamp::from(1000),
        manufacturer_id,
        data: [1, 2, 3, 4, 5, 6],
    };
    let plain = |ty| Entry::OemNotTimestamped { record_id: record_id(1), ty, data: [0xFF; 13] };
    let revision = EventMessageRevision::V2_0;
    for byte in 0..=u8::MAX {
        check(system(by_address(byte), revision, 0x01, 9), byte <= 127);
        check(system(by_software(byte), revision, 0x01, 9), byte <= 127);
        check(system(by_address(0x10), EventMessageRevision::Unknown(byte), 0x01, 9), byte != 0x03 && byte != 0x04);
        check(system(by_address(0x10), revision, byte, 9), byte <= 127);
        check(system(by_address(0x10), revision, 0x01, byte), byte <= 15);
        check(timed(byte, 0xFF_FFFF), (0xC0..=0xDF).contains(&byte));
        check(plain(byte), byte >= 0xE0);
    }
    for maker in [0, 1, 0xFF_FFFF, 0x100_0000, 0x8000_0000, u32::MAX] {
        check(timed(0xC0, maker), maker <= 0xFF_FFFF);
    }
    assert_eq!((NoSuchRecord.number(), NoSuchRecord.to_string()), (7, "no such record".to_string()));
}

#[test]
fn get_entry() {
    let answer = [&[0xFF, 0xFF], &RECORD[..]].concat();
    let info = get_parsed(&answer).unwrap();
    assert_eq!((info.next_entry, info.entry), (RecordId::LAST, parsed(&RECORD).unwrap()));
    assert_eq!(get_parsed(&answer[..17]), Err(ParseEntryError::NotEnoughData));
    assert_eq!(get_parsed(&changed([0; 18], 4, 0x01)), Err(ParseEntryError::UnknownRecordType(0x01)));

    assert_eq!(record_bytes(&answer), RECORD);
    assert_eq!(record_bytes(&[&answer[..], &[7]].concat()), RECORD);
    assert_eq!(record_bytes(&answer[..17]), []);
    assert_eq!(record_bytes(&[]), []);
}

/// Of a record by itself, and in a get-entry answer.
fn entry_of(version: Version, record: &[u8; 16]) -> Result<Entry, Refusal> {
    let entry = Entry::parse_in(version, record);
    let answer = [&[0x34, 0x12], &record[..], &[0xFF]].concat();
    let info = entry.clone().map(|entry| SelEntryInfo { next_entry: record_id(0x1234), entry });
    assert_eq!(GetSelEntry::parse_success_response_in(version, &answer), info);
    entry
}

/// The entry of RECORD, were it made by another.
fn entry_by(generator: EventGenerator) -> Entry {
    let mut entry = Entry::parse(&RECORD).unwrap();
    if let Entry::System { generator_id, .. } = &mut entry {
        *generator_id = generator;
    }
    entry.remade()
}

#[test]
fn channels_of_a_version() {
    for (version, reserved) in [(Version::V1_5, 0x8..=0xD), (Version::V2_0, 0xC..=0xD)] {
        for number in 0x0..=0xF {
            let valid = if reserved.contains(&number) { None } else { Channel::new(number) };
            let channel = valid.ok_or(Refusal::InvalidChannel(number));
            let by_address = |channel_number| EventGenerator::RqSAAndLun { i2c_addr: 0x10, channel_number, lun: LogicalUnit::Two };
            let by_software = |channel_number| EventGenerator::SoftwareId { software_id: 0x10, channel_number };
            let record = changed(RECORD, 8, number << 4 | 0b0110);
            assert_eq!(entry_of(version, &record), channel.map(by_address).map(entry_by));
            assert_eq!(entry_of(version, &changed(record, 7, 0x21)), channel.map(by_software).map(entry_by));
            // No channel is tested in an OEM record.
            for ty in [0xC0, 0xDF, 0xE0, 0xFF] {
                let oem = changed(record, 2, ty);
                assert_eq!(entry_of(version, &oem), Ok(parsed(&oem).unwrap()));
            }
        }
    }
}

#[test]
fn refused_by_a_version() {
    let answer = [&[0xFF, 0xFF], &RECORD[..]].concat();
    // Length first, then type, then channel.
    let (unknown, on_9h) = (changed(changed(RECORD, 2, 0x03), 8, 0x90), changed(RECORD, 8, 0x90));
    for version in [Version::V1_5, Version::V2_0] {
        for short in [&[][..], &RECORD[..15], &unknown[..15], &on_9h[..15]] {
            assert_eq!(Entry::parse_in(version, short), Err(Refusal::TooShort { needed: 16 }));
        }
        for short in [&[][..], &answer[..2], &answer[..17]] {
            assert_eq!(GetSelEntry::parse_success_response_in(version, short), Err(Refusal::TooShort { needed: 18 }));
        }
        assert_eq!(entry_of(version, &unknown), Err(Refusal::UnknownRecordType(0x03)));
        assert_eq!(entry_of(version, &changed(RECORD, 8, 0xD0)), Err(Refusal::InvalidChannel(0xD)));
    }
    assert_eq!(entry_of(Version::V1_5, &on_9h), Err(Refusal::InvalidChannel(0x9)));
    assert_eq!(ParseEntryError::from(Refusal::InvalidChannel(0x9)), ParseEntryError::InvalidChannel(0x9));
}

#[test]
fn versions() {
    for byte in 0..=u8::MAX {
        let expected = match byte {
            0x51 => Some(Version::V1_5),
            0x02 => Some(Version::V2_0),
            _ => None,
        };
        assert_eq!(Version::from_device_id(byte), expected, "{byte:02X}");
    }
}

#[test]
fn info() {
    let answer = [0x51, 0x0A, 0x00, 0xF0, 0x3F, 0xE8, 0x03, 0x00, 0x00, 0x00, 0x02, 0x00, 0x00, 0x8A];
    let info = GetSelInfo::parse_success_response(&answer).unwrap();
    assert_eq!((info.version_maj, info.version_min, info.entries, info.bytes_free), (1, 5, 10, 0x3FF0));
    assert_eq!((info.last_add_time, info.last_del_time), (Timestamp::from(1000), Timestamp::from(512)));
    assert!(info.overflow);
    assert_eq!(info.supported_cmds, [SelCommand::Delete, SelCommand::Reserve]);

    let all = GetSelInfo::parse_success_response(&changed(answer, 13, 0x7F)).unwrap();
    assert!(!all.overflow);
    assert_eq!(all.supported_cmds, [SelCommand::Delete, SelCommand::PartialAddEntry, SelCommand::Reserve, SelCommand::GetAllocInfo]);

    assert_eq!(GetSelInfo::parse_success_response(&answer[..13]).err(), Some(NotEnoughData));
    assert_eq!(GetSelInfo::parse_success_response(&[0; 15]).err(), Some(NotEnoughData));
}

#[test]
fn allocation() {
    let answer = [0x00, 0x04, 0x00, 0x00, 0x80, 0x00, 0x60, 0x01, 0x02];
    let info = SelGetAllocInfo::parse_success_response(&answer).unwrap_or_else(|_| panic!());
    assert_eq!((info.num_alloc_units, info.alloc_unit_size), (NonZeroU16::new(0x400), None));
    assert_eq!((info.num_free_units, info.largest_free_blk, info.max_record_size), (0x80, 0x160, 2));
    // Where the original panics.
    assert!(AllocInfo::parse(&answer[..8]).is_none() && SelAllocInfo::parse(&answer[..8]).is_none());
}

#[test]
fn reservation_and_clearing() {
    assert_eq!(ReserveSel::parse_success_response(&[0x34, 0x12, 0x99]), Ok(NonZeroU16::new(0x1234).unwrap()));
    for refused in [&[][..], &[1], &[0, 0], &[0, 0, 1]] {
        assert_eq!(ReserveSel::parse_success_response(refused), Err(NotEnoughData));
    }
    assert_eq!(ClearSel::parse_success_response(&[0x11]), Ok(ErasureProgress::Completed));
    assert_eq!(ClearSel::parse_success_response(&[0x02, 0x01]), Ok(ErasureProgress::InProgress));
    assert_eq!(ClearSel::parse_success_response(&[]), Err(NotEnoughData));
}

#[test]
fn requests() {
    fn check(request: Request, command: u8, payload: &[u8]) {
        assert_eq!((request.command(), request.payload()), (command, payload));
    }
    let reservation = NonZeroU16::new(0x1234);
    check(GetSelInfo.request(), 0x40, &[]);
    check(SelGetAllocInfo.request(), 0x41, &[]);
    check(ReserveSel.request(), 0x42, &[]);
    check(ClearSel::initiate(reservation).request(), 0x47, &[0x34, 0x12, 0x43, 0x4C, 0x52, 0xAA]);
    check(ClearSel::get_status(None).request(), 0x47, &[0x00, 0x00, 0x43, 0x4C, 0x52, 0x00]);
    check(GetSelEntry::new(None, RecordId::FIRST).request(), 0x43, &[0x00, 0x00, 0x00, 0x00, 0x00, 0xFF]);
    check(GetSelEntry::new(reservation, record_id(0xABCD)).request(), 0x43, &[0x34, 0x12, 0xCD, 0xAB, 0x00, 0xFF]);
}

#[test]
fn event_data() {
    let data = EventData::parse(&[0xE5, 0x0A, 0x07]);
    assert_eq!(
        data,
        EventData { offset: 5, data2_type: EventData2Type::SensorSpecific(value(10)), data3_type: EventData3Type::OemCode(value(7)) }
    );
    assert_eq!(data.to_string(), "ext2=0x0A, oem3=0x07");
    assert_eq!((data.data2_type.to_string(), data.data3_type.to_string()), ("ext2=0x0A".into(), "oem3=0x07".into()));

    let unspecified = EventData::parse(&[0xC0, 0xFF, 0xFF]);
    assert!(unspecified.data2_type.is_unspecified() && unspecified.data3_type.is_unspecified());
    assert_eq!(unspecified.to_string(), "");
    assert_eq!(EventData::parse(&[0x50, 0x00, 0xFE]).to_string(), "reading=0, threshold=254");
    // A built value, with an offset that no record has.
    let built = EventData { offset: 0xFF, data2_type: EventData2Type::Unspecified, data3_type: EventData3Type::TriggerThreshold(value(1)) };
    assert_eq!(built.to_string(), "threshold=1");
}

#[test]
fn event_data_by_type() {
    // The kinds 00, 01, 10 and 11 of byte 14, and of byte 15, by event type.
    let (reading, previous, oem, specific) =
        (TypedData2::TriggerReading, TypedData2::PreviousState, TypedData2::OemCode, TypedData2::SensorSpecific);
    let (none, reserved) = (TypedData2::Unspecified, TypedData2::Reserved);
    let of_second = |v| {
        [
            (0x01, [none, reading(v), oem(v), specific(v)]),
            (0x02, [none, previous(v), oem(v), specific(v)]),
            (0x0C, [none, previous(v), oem(v), specific(v)]),
            (0x0D, [none, reading(v), oem(v), specific(v)]),
            (0x6E, [none, reading(v), oem(v), specific(v)]),
            (0x6F, [none, previous(v), oem(v), specific(v)]),
            (0x70, [none, previous(v), oem(v), reserved]),
            (0x7F, [none, previous(v), oem(v), reserved]),
        ]
    };
    let (threshold, oem3, specific3) = (TypedData3::TriggerThreshold, TypedData3::OemCode, TypedData3::SensorSpecific);
    let (none3, reserved3) = (TypedData3::Unspecified, TypedData3::Reserved);
    let of_third = |v| {
        [
            (0x00, [none3, threshold(v), oem3(v), specific3(v)]),
            (0x0C, [none3, reserved3, oem3(v), specific3(v)]),
            (0x6F, [none3, reserved3, oem3(v), specific3(v)]),
            (0x70, [none3, reserved3, oem3(v), reserved3]),
        ]
    };
    for direction in [0x00, 0x80] {
        for (event_type, cases) in of_second(value(0x12)) {
            for (kind, case) in cases.into_iter().enumerate() {
                let read = |v| TypedData::parse(event_type | direction, &[(kind as u8) << 6 | 5, v, 0]);
                assert_eq!(read(0x12), TypedData { offset: 5, data2: case, data3: none3 });
                assert_eq!(read(0xFF).data2, if case == reserved { reserved } else { none });
            }
        }
        for (event_type, cases) in of_third(value(0x34)) {
            for (kind, case) in cases.into_iter().enumerate() {
                let read = |v| TypedData::parse(event_type | direction, &[(kind as u8) << 4 | 5, 0, v]);
                assert_eq!(read(0x34), TypedData { offset: 5, data2: none, data3: case });
                assert_eq!(read(0xFF).data3, if case == reserved3 { reserved3 } else { none3 });
            }
        }
    }
    for (event_type, data, text) in [
        (0x01, [0x50, 0x12, 0x34], "reading=18, threshold=52"),
        (0xEF, [0x50, 0x12, 0x34], "prev=0x12"),
        (0x0C, [0x70, 0xF1, 0x0F], "prev=0xF1, ext3=0x0F"),
        (0x6F, [0x10, 0x12, 0x34], ""),
        (0x70, [0xF0, 0x12, 0x34], ""),
        (0x70, [0xE0, 0x12, 0x34], "oem3=0x34"),
    ] {
        assert_eq!(TypedData::text(event_type, &data).to_string(), text);
        // What was decoded has the same text; the fields too, but for a reserved kind with FFh.
        let decoded = EventData::parse(&data);
        assert_eq!(decoded.text_by_type(event_type).to_string(), text);
        assert_eq!(decoded.by_type(event_type), TypedData::parse(event_type, &data));
    }
    let lost = [0xF3, 0xFF, 0x01];
    assert_eq!(TypedData::parse(0x70, &lost), TypedData { offset: 3, data2: reserved, data3: reserved3 });
    assert_eq!(EventData::parse(&lost).by_type(0x70), TypedData { offset: 3, data2: none, data3: reserved3 });
}

#[test]
fn event_texts() {
    assert_eq!(Event(0x01, 0x00, 9).to_string(), "Upper Critical - going high");
    assert_eq!(Event(0x6F, 0x23, 3).to_string(), "Power Cycle");
    assert_eq!(Event(0xEF, 0x23, 0xF3).to_string(), "Power Cycle");
    assert_eq!(Event(0x6F, 0x22, 0xE).to_string(), "Unknown");
    for none in [
        Event(0x6F, 0x23, 4),
        Event(0x6F, 0x23, 7),
        Event(0x6F, 0x22, 0xD),
        Event(0x00, 0x0C, 0),
        Event(0x0D, 0x0C, 0),
        Event(0x70, 0x0C, 0),
    ] {
        assert_eq!(none.to_string(), "");
    }
    assert!(matches!(SensorType::from(0x23), SensorType::Watchdog2));
}

#[test]
fn times() {
    for (time, text) in [(0, "Unknown"), (1, "1"), (1000, "1000"), (u32::MAX, "4294967295")] {
        assert_eq!(Timestamp::from(time).to_string(), text);
    }
}

#[test]
fn times_before_the_clock_was_set() {
    let edges = [
        (0, "Unknown"),
        (1, "+1"),
        (1000, "+1000"),
        (0x2000_0000, "+536870912"),
        (0x2000_0001, "536870913"),
        (0xFFFF_FFFE, "4294967294"),
        (0xFFFF_FFFF, "none"),
    ];
    for (time, text) in edges {
        assert_eq!(Timestamp::from(time).log_text().to_string(), text);
    }
}

#[test]
fn ids_channels_units() {
    assert_eq!((RecordId::new(0x0000), RecordId::new(0xFFFF)), (None, None));
    assert_eq!(record_id(0xFFFE).value(), 0xFFFE);
    assert_eq!(
        [RecordId::FIRST, RecordId::LAST, record_id(1)].map(|id| (id.is_first(), id.is_last())),
        [(true, false), (false, true), (false, false)]
    );

    for number in 0..=u8::MAX {
        let expected = match number {
            0x0 => Some(Channel::Primary),
            0x1..=0xB => Some(numbered(number)),
            0xE => Some(Channel::Current),
            0xF => Some(Channel::System),
            _ => None,
        };
        assert_eq!(Channel::new(number), expected);
        assert_eq!(LogicalUnit::try_from(number).map(|unit| unit.value()), if number < 4 { Ok(number) } else { Err(()) });
        assert_eq!(u8::from(LogicalUnit::from_low_bits(number)), number % 4);
    }
    assert_eq!(ChannelNumber::new(NonZeroU8::new(0xC).unwrap()), None);
}

#[test]
fn lengths() {
    use AnswerKind::*;
    for length in (0..300).chain([usize::MAX, 1 << 32 | 14]) {
        for (kind, needed) in [(Entry, 16), (GetEntry, 18), (Info, 14), (Allocation, 9), (Reserve, 2), (Clear, 1)] {
            let refused = match length {
                _ if length < needed => Some(Refusal::TooShort { needed }),
                _ if kind == Info && length > needed => Some(Refusal::TooLong),
                _ => None,
            };
            assert_eq!(refused_length(kind, length), refused, "{kind:?} {length}");
        }
    }
}

/// Each refusal with the original's error beside it.
#[test]
fn what_was_short() {
    use AnswerKind::*;
    let answer = [&[0xFF, 0xFF], &RECORD[..]].concat();
    let short = |needed| Some(Refusal::TooShort { needed });
    assert_eq!((refusal(Entry, &RECORD), refusal(Entry, &RECORD[..15]), refusal(Entry, &[])), (None, short(16), short(16)));
    assert_eq!((refusal(GetEntry, &answer), refusal(GetEntry, &answer[..17]), refusal(GetEntry, &[0; 2])), (None, short(18), short(18)));
    assert_eq!(refusal(GetEntry, &changed([0; 18], 4, 0x01)), Some(Refusal::UnknownRecordType(0x01)));
    assert_eq!(refusal(Entry, &changed(RECORD, 8, 0xC0)), Some(Refusal::InvalidChannel(0xC)));
    assert_eq!((refusal(Info, &[0; 14]), refusal(Info, &[0; 13]), refusal(Info, &[0; 15])), (None, short(14), Some(Refusal::TooLong)));
    assert_eq!((refusal(Allocation, &[0; 9]), refusal(Allocation, &[0; 8])), (None, short(9)));
    assert_eq!((refusal(Clear, &[0]), refusal(Clear, &[])), (None, short(1)));
    // Length before reservation.
    assert_eq!((refusal(Reserve, &[1, 0]), refusal(Reserve, &[0]), refusal(Reserve, &[])), (None, short(2), short(2)));
    assert_eq!((refusal(Reserve, &[0, 0]), refusal(Reserve, &[0, 0, 1])), (Some(Refusal::NoReservation), Some(Refusal::NoReservation)));

    let told = [
        (Refusal::TooShort { needed: 18 }, 1, ParseEntryError::NotEnoughData, "too short, 18 bytes are needed"),
        (Refusal::UnknownRecordType(0x0A), 2, ParseEntryError::UnknownRecordType(0x0A), "unknown record type 0Ah"),
        (Refusal::InvalidChannel(0xC), 3, ParseEntryError::InvalidChannel(0xC), "invalid channel Ch"),
        (Refusal::TooLong, 8, ParseEntryError::NotEnoughData, "too long"),
        (Refusal::NoReservation, 9, ParseEntryError::NotEnoughData, "a reservation of 0"),
    ];
    for (refusal, number, original, text) in told {
        assert_eq!((refusal.number(), ParseEntryError::from(refusal), refusal.to_string()), (number, original, text.to_string()));
    }
}

#[test]
fn bytes_of_answers() {
    use AnswerKind::*;
    for (kind, bytes) in [(Entry, 16), (GetEntry, 18), (Info, 14), (Allocation, 9), (Reserve, 2), (Clear, 1)] {
        assert_eq!(bytes_that_count(kind), bytes, "{kind:?}");
    }
}

#[test]
fn lengths_of_captures() {
    for length in 0..=60_100 {
        assert_eq!(refused_slots(length), length % 20 != 0 || length > 60_000, "{length}");
    }
    // The second is a multiple of 20; so is the third, and its lower half is 20.
    for length in [usize::MAX, usize::MAX - 15, 0x5_0000_0014] {
        assert!(refused_slots(length), "{length}");
    }
    for length in [0, 1, 19, 20, 21, 59_980, 59_999, 60_000, 60_001, 60_020] {
        let walked = walk(&vec![0; length], 0, &mut [0; 3000]);
        assert_eq!(walked == Err(WalkError::BadCapture), refused_slots(length), "{length}");
    }
}

/// A slot for each asked and next id.
fn slots(links: &[(u16, u16)]) -> Vec<u8> {
    links.iter().flat_map(|(ask, next)| [&ask.to_le_bytes()[..], &next.to_le_bytes(), &RECORD].concat()).collect()
}

/// The walk, and the list after it, of which every place was EEEEh.
fn walked(links: &[(u16, u16)], budget: usize, places: usize) -> (Result<Walk, WalkError>, Vec<u16>) {
    let mut list = vec![0xEEEE; places];
    (walk(&slots(links), budget, &mut list), list)
}

#[test]
fn walks() {
    let found = |verdict, read| Ok(Walk { verdict, read });
    let chain = [(0x0000, 0x0001), (0x0001, 0xFFFF)];
    assert_eq!(walked(&[], 1, 0), (found(Verdict::Missing(RecordId::FIRST), 0), vec![]));
    assert_eq!(walked(&[], 0, 1), (found(Verdict::Spent(RecordId::FIRST), 0), vec![0xEEEE]));
    assert_eq!(walked(&chain, 1, 2), (found(Verdict::Spent(record_id(1)), 1), vec![0, 0xEEEE]));
    assert_eq!(walked(&chain, 2, 3), (found(Verdict::Ended, 2), vec![0, 1, 0xEEEE]));
    assert_eq!(walked(&[chain[1], chain[0]], usize::MAX, 2), (found(Verdict::Ended, 2), vec![1, 0]));
    assert_eq!(walked(&[(0, 0)], 1, 1), (found(Verdict::Spent(RecordId::FIRST), 1), vec![0]));
    assert_eq!(walked(&[(0, 0)], 2, 1), (found(Verdict::Circle, 1), vec![0]));
    assert_eq!(walked(&[(0, 9), (5, 6)], 3, 2), (found(Verdict::Missing(record_id(9)), 1), vec![0, 0xEEEE]));
    assert_eq!(walked(&chain, 0, 1), (Err(WalkError::NoRoom(2)), vec![0xEEEE]));

    let mut list = [0xEEEE; 1];
    assert_eq!(walk(&[0; 21], 1, &mut list), Err(WalkError::BadCapture));
    assert_eq!(walk(&[0; 60_020], 1, &mut list), Err(WalkError::BadCapture));
    assert_eq!(list, [0xEEEE]);
}

#[test]
fn finds() {
    let capture = slots(&[(0, 1), (7, 2), (7, 0xFFFF)]);
    assert_eq!(find(&capture, RecordId::FIRST), Some(0));
    assert_eq!(find(&capture, record_id(7)), Some(1));
    assert_eq!(find(&capture, record_id(1)), None);
    assert_eq!(find(&capture[..19], RecordId::FIRST), None);
}

/// Ids 0000h and FFFFh among them, and two that are asked for twice.
const LINKS: [(u16, u16); 6] = [(5, 1), (0, 5), (5, 0xFFFF), (0xFFFF, 0), (0, 9), (0x0100, 0xFFFF)];

/// By asked id, 0, 0, 5, 5, 0100h, FFFFh, and of equal ids the earlier slot first.
const INDEX: [u16; 6] = [1, 4, 0, 2, 5, 3];

#[test]
fn indexes() {
    let capture = slots(&LINKS);
    assert_eq!(index_of(&capture), Ok(INDEX.to_vec()));
    assert_eq!(index_of(&[]), Ok(vec![]));
    assert_eq!(index_of(&vec![0; 60_000]), Ok((0..3000).collect()));
    for length in [1, 19, 21, 60_001, 60_020] {
        let bad = vec![0; length];
        assert_eq!(index_of(&bad), Err(IndexError::BadCapture));
        assert_eq!(check_index(&bad, &[]), Err(IndexError::BadCapture));
        assert_eq!(add_to_index(&bad, &mut vec![]), Err(IndexError::BadCapture));
    }

    assert_eq!(check_index(&capture, &INDEX), Ok(()));
    assert_eq!(check_index(&[], &[]), Ok(()));
    let wrong: [&[u16]; 9] = [
        &[],
        &[1, 4, 0, 2, 5],
        &[1, 4, 0, 2, 5, 3, 3],
        &[4, 1, 0, 2, 5, 3],
        &[1, 4, 2, 0, 5, 3],
        &[1, 4, 0, 2, 3, 5],
        &[1, 4, 0, 0, 5, 3],
        &[1, 4, 0, 2, 5, 6],
        &[0, 1, 2, 3, 4, 5],
    ];
    for index in wrong {
        assert_eq!(check_index(&capture, index), Err(IndexError::WrongIndex), "{index:?}");
    }
    assert_eq!((IndexError::BadCapture.number(), IndexError::BadCapture.to_string()), (5, "bad capture".into()));
    assert_eq!((IndexError::WrongIndex.number(), IndexError::WrongIndex.to_string()), (10, "wrong index".into()));
}

#[test]
fn an_index_that_grows() {
    let (capture, mut index) = (slots(&LINKS), vec![]);
    let steps: [&[u16]; 7] = [&[], &[0], &[1, 0], &[1, 0, 2], &[1, 0, 2, 3], &[1, 4, 0, 2, 3], &INDEX];
    for (slots, expected) in steps.into_iter().enumerate() {
        assert_eq!((add_to_index(&capture[..slots * 20], &mut index), &index[..]), (Ok(()), expected));
    }

    let added = |index: &[u16]| {
        let mut index = index.to_vec();
        (add_to_index(&capture, &mut index), index)
    };
    let wrong: [&[u16]; 6] = [&[], &[1], &steps[4][..3], steps[4], &INDEX, &[1, 4, 0, 3, 2]];
    for index in wrong {
        assert_eq!(added(index), (Err(IndexError::WrongIndex), index.to_vec()));
    }
    // What stands behind the index of the slots before is not looked at.
    assert_eq!(added(&[1, 4, 0, 2, 3, 9, 9]), (Ok(()), INDEX.to_vec()));
    // One slot: there is none before it, and a place that is missing is not taken for its number.
    let mut index = vec![7];
    assert_eq!((add_to_index(&capture[..20], &mut index), &index[..]), (Ok(()), &[0][..]));
    assert_eq!(add_to_index(&capture[..40], &mut vec![]), Err(IndexError::WrongIndex));
    assert_eq!((add_to_index(&[], &mut index), &index[..]), (Ok(()), &[][..]));
}

#[test]
fn finds_by_an_index() {
    let capture = slots(&LINKS);
    for (id, slot) in [(RecordId::FIRST, Some(1)), (record_id(5), Some(0)), (record_id(0x0100), Some(5)), (RecordId::LAST, Some(3))] {
        assert_eq!((find_indexed(&capture, &INDEX, id), find(&capture, id)), (slot, slot));
    }
    for id in [1, 4, 6, 0x00FF, 0x0101, 0xFFFE].map(record_id) {
        assert_eq!((find_indexed(&capture, &INDEX, id), find(&capture, id)), (None, None));
    }
    // The weaker case: a later slot with the id, or none though there is one; never a slot with another id.
    assert_eq!(find_indexed(&capture, &[4, 1, 2, 0, 5, 3], record_id(5)), Some(2));
    assert_eq!(find_indexed(&capture, &[3, 5, 2, 0, 4, 1], RecordId::FIRST), None);
    assert_eq!(find_indexed(&capture, &[], RecordId::FIRST), None);
    assert_eq!(find_indexed(&capture, &[6; 6], RecordId::FIRST), None);
    assert_eq!(find_indexed(&[], &INDEX, RecordId::FIRST), None);
}

#[test]
fn walks_by_an_index() {
    let capture = slots(&LINKS);
    let walked = |index: &[u16], budget, places| {
        let mut list = vec![0xEEEE; places];
        (walk_indexed(&capture, index, budget, &mut list), list)
    };
    let found = |verdict, read| Ok(Walk { verdict, read });
    // 0000h at slot 1, then 0005h at slot 0, then 0001h, which no slot has.
    assert_eq!(walked(&INDEX, 7, 6), (found(Verdict::Missing(record_id(1)), 2), vec![1, 0, 0xEEEE, 0xEEEE, 0xEEEE, 0xEEEE]));
    assert_eq!(walked(&INDEX, 2, 6), (found(Verdict::Spent(record_id(1)), 2), vec![1, 0, 0xEEEE, 0xEEEE, 0xEEEE, 0xEEEE]));
    assert_eq!(walked(&INDEX, 7, 5), (Err(WalkError::NoRoom(6)), vec![0xEEEE; 5]));
    // Wrong before no room, and bad before wrong.
    for places in [0, 5, 6, 7] {
        assert_eq!(walked(&INDEX[..5], 7, places), (Err(WalkError::WrongIndex), vec![0xEEEE; places]));
        assert_eq!(walked(&[4, 1, 0, 2, 5, 3], 7, places), (Err(WalkError::WrongIndex), vec![0xEEEE; places]));
        assert_eq!(walk_indexed(&capture[1..], &INDEX, 7, &mut vec![0; places]), Err(WalkError::BadCapture));
        assert_eq!(walk_indexed(&[0; 60_020], &[], 7, &mut vec![0; places]), Err(WalkError::BadCapture));
    }
    let mut list = [0xEEEE; 2];
    assert_eq!(walk_indexed(&slots(&[(0, 7), (7, 0xFFFF)]), &[0, 1], 3, &mut list), found(Verdict::Ended, 2));
    assert_eq!(list, [0, 1]);
    assert_eq!(walk_indexed(&slots(&[(7, 0), (0, 7)]), &[1, 0], 3, &mut list), found(Verdict::Circle, 2));
    assert_eq!(list, [1, 0]);
}

fn listed(m: u8) -> Result<Vec<(u8, u8)>, PartError> {
    reads(m).map(|reads| reads.iter().map(|read| (read.offset, read.bytes_to_read)).collect())
}

#[test]
fn reads_of_a_record() {
    assert_eq!(listed(0), Err(PartError::NoBytes));
    assert_eq!(listed(1), Ok((0..16).map(|byte| (byte, 1)).collect()));
    assert_eq!(listed(3), Ok(vec![(0, 3), (3, 3), (6, 3), (9, 3), (12, 3), (15, 1)]));
    assert_eq!(listed(4), Ok(vec![(0, 4), (4, 4), (8, 4), (12, 4)]));
    assert_eq!(listed(7), Ok(vec![(0, 7), (7, 7), (14, 2)]));
    assert_eq!(listed(8), Ok(vec![(0, 8), (8, 8)]));
    assert_eq!(listed(15), Ok(vec![(0, 15), (15, 1)]));
    for m in 16..=255 {
        assert_eq!(listed(m), Ok(vec![(0, 16)]));
    }
    for m in 1..=255 {
        let list = listed(m).unwrap();
        let ends = list.iter().map(|(offset, count)| offset + count);
        assert!(list.iter().map(|(offset, _)| *offset).eq(std::iter::once(0).chain(ends.clone().take(list.len() - 1))), "{m}");
        assert_eq!(ends.last(), Some(16), "{m}");
        assert!(list.iter().rev().skip(1).all(|(_, count)| *count == m.min(16)), "{m}");
        assert!(list.iter().all(|(_, count)| (1..=m).contains(count)), "{m}");
        // One read fewer, of at most m bytes each, covers less than the record.
        assert!((list.len() - 1) * usize::from(m) < 16, "{m}");
    }
}

#[test]
fn requests_for_a_part() {
    let reservation = NonZeroU16::new(0x1234);
    let asked = |reservation, id, offset, bytes_to_read| GetEntryPart::new(reservation, id, Part { offset, bytes_to_read });
    let request = asked(reservation, record_id(0xABCD), 4, 12).unwrap().request();
    assert_eq!((request.command(), request.payload()), (0x43, &[0x34, 0x12, 0xCD, 0xAB, 0x04, 0x0C][..]));
    let request = asked(NonZeroU16::new(1), RecordId::LAST, 15, 1).unwrap().request();
    assert_eq!((request.command(), request.payload()), (0x43, &[0x01, 0x00, 0xFF, 0xFF, 0x0F, 0x01][..]));
    for (offset, count) in (0..=255).flat_map(|offset| (0..=255).map(move |count| (offset, count))) {
        let part = 1 <= count && u16::from(offset) + u16::from(count) <= 16;
        let told = asked(reservation, RecordId::FIRST, offset, count);
        assert_eq!(told.as_ref().err(), (!part).then_some(&PartError::NoSuchPart), "{offset} {count}");
        if let Ok(told) = told {
            assert_eq!(told.request().payload(), [0x34, 0x12, 0x00, 0x00, offset, count]);
        }
        // The reservation is asked for first.
        assert_eq!(asked(None, RecordId::FIRST, offset, count), Err(PartError::Unreserved));
    }
    for read in (1..=255).flat_map(|m| reads(m).unwrap()) {
        assert!(GetEntryPart::new(reservation, RecordId::FIRST, read).is_ok());
    }
}

/// What a controller answers to a read.
fn answer_to(record: &[u8], next: u16, read: Part) -> Vec<u8> {
    [&next.to_le_bytes()[..], &record[read.offset.into()..][..read.bytes_to_read.into()]].concat()
}

/// Hands in an answer that is refused with this, and leaves the joining as it was.
fn refuses(joining: &mut Joining, answer: &[u8], why: PartError) {
    let before = joining.clone();
    assert_eq!(joining.take(answer), Err(why), "{answer:02X?}");
    assert_eq!(*joining, before, "{answer:02X?}");
}

#[test]
fn answers_joined() {
    for (m, next) in (1..=255).flat_map(|m| [0, 0x0100, 0x1234, 0xFFFF].map(|next| (m, next))) {
        let (mut joining, mut got) = (Joining::new(m), 0);
        for read in reads(m).unwrap() {
            assert_eq!((joining.got(), joining.answer()), (got, None));
            let answer = answer_to(&RECORD, next, read);
            let needed = answer.len();
            for short in 0..needed {
                refuses(&mut joining, &answer[..short], PartError::TooShort { needed });
            }
            for long in [needed + 1, needed + 255, needed + 256] {
                refuses(&mut joining, &[&answer[..], &vec![0; long - needed]].concat(), PartError::TooLong);
            }
            if got > 0 {
                for other in [next ^ 1, next ^ 0x8000, !next] {
                    refuses(&mut joining, &answer_to(&RECORD, other, read), PartError::NextDiffers);
                }
                // The length is told first.
                refuses(&mut joining, &answer_to(&RECORD, !next, read)[1..], PartError::TooShort { needed });
            }
            assert_eq!(joining.take(&answer), Ok(()));
            got += usize::from(read.bytes_to_read);
        }
        assert_eq!(joining.got(), 16);
        let whole = joining.answer().unwrap();
        assert_eq!(whole[..], [&next.to_le_bytes(), &RECORD[..]].concat());
        let info = GetSelEntry::parse_success_response(&whole).unwrap();
        assert_eq!((info.next_entry.value(), info.entry.to_bytes()), (next, Ok(RECORD)));
        // After the last, whatever it is.
        for length in 0..20 {
            refuses(&mut joining, &vec![0; length], PartError::NoSuchPart);
        }
    }
    // Any next id at first, then that one alone.
    let mut joining = Joining::new(8);
    assert_eq!(joining.take(&[0xFE, 0xCA, 1, 2, 3, 4, 5, 6, 7, 8]), Ok(()));
    refuses(&mut joining, &[0x00, 0x00, 9, 10, 11, 12, 13, 14, 15, 16], PartError::NextDiffers);
    refuses(&mut joining, &[0xCA, 0xFE, 9, 10, 11, 12, 13, 14, 15, 16], PartError::NextDiffers);
    assert_eq!(joining.take(&[0xFE, 0xCA, 9, 10, 11, 12, 13, 14, 15, 16]), Ok(()));
    assert_eq!(joining.answer(), Some([0xFE, 0xCA, 1, 2, 3, 4, 5, 6, 7, 8, 9, 10, 11, 12, 13, 14, 15, 16]));
    // With m of 0 nothing is taken.
    for length in 0..20 {
        refuses(&mut Joining::new(0), &vec![0; length], PartError::NoBytes);
    }
}

#[test]
fn why_a_record_is_not_read_by_parts() {
    let told = [
        (PartError::TooShort { needed: 3 }, 1, "too short, 3 bytes are needed"),
        (PartError::TooLong, 8, "too long"),
        (PartError::NoBytes, 13, "no bytes at once"),
        (PartError::Unreserved, 14, "no reservation"),
        (PartError::NextDiffers, 15, "next ids differ"),
        (PartError::NoSuchPart, 16, "no such part of a record, or an answer after the last"),
    ];
    for (why, number, text) in told {
        assert_eq!((why.number(), why.to_string()), (number, text.to_string()));
    }
}

/// The message of RECORD, and what RECORD has beside it.
const MESSAGE: [u8; 7] = [0x04, 0x01, 0x30, 0x01, 0x59, 0x5A, 0x55];

fn beside() -> Beside {
    Beside { record_id: record_id(1), timestamp: Timestamp::from(1000), generator: [0x20, 0x00] }
}

#[test]
fn messages_made_records() {
    assert_eq!(EventMessage(MESSAGE).to_record(beside()), Ok(RECORD));
    assert_eq!(record_of(&MESSAGE, beside()), Ok(RECORD));
    let given = Beside { record_id: record_id(0x0201), timestamp: Timestamp::from(0x0605_0403), generator: [0x07, 0x08] };
    let record = [0x01, 0x02, 0x02, 0x03, 0x04, 0x05, 0x06, 0x07, 0x08, 0x09, 0x0A, 0x0B, 0x0C, 0x0D, 0x0E, 0x0F];
    assert_eq!(EventMessage([0x09, 0x0A, 0x0B, 0x0C, 0x0D, 0x0E, 0x0F]).to_record(given), Ok(record));
    for (record_id, time, byte) in [(RecordId::FIRST, 0, 0x00), (RecordId::LAST, u32::MAX, 0xFF)] {
        let given = Beside { record_id, timestamp: Timestamp::from(time), generator: [byte; 2] };
        assert_eq!(EventMessage([byte; 7]).to_record(given), Ok(changed([byte; 16], 2, 0x02)));
    }
    for length in (0..7).chain(8..40) {
        let message: Vec<u8> = MESSAGE.into_iter().cycle().take(length).collect();
        let told = Err(if length < 7 { EventError::TooShort { needed: 7 } } else { EventError::TooLong });
        // The length is told first, on any channel.
        for byte in 0..=255 {
            assert_eq!(record_of(&message, Beside { generator: [0x20, byte], ..beside() }), told);
        }
    }
    for (byte, place) in (0..=255).flat_map(|byte| (0..7).map(move |place| (byte, place))) {
        let message = EventMessage(changed(MESSAGE, place, byte));
        let record = changed(RECORD, 9 + place, byte);
        assert_eq!(message.to_record(beside()), Ok(record));
        assert_eq!(EventMessage::from_record(&record), Ok(message));
    }
    for (first, second) in (0..=255).flat_map(|first| (0..=255).map(move |second| (first, second))) {
        let told = EventMessage(MESSAGE).to_record(Beside { generator: [first, second], ..beside() });
        let channel = second >> 4;
        match channel {
            0xC | 0xD => assert_eq!(told, Err(EventError::InvalidChannel(channel))),
            _ => assert_eq!(told, Ok(changed(changed(RECORD, 7, first), 8, second))),
        }
    }
}

/// The record's entry has the message's fields, and what was given beside it.
#[test]
fn entries_of_messages() {
    let message = EventMessage([0x03, 0x0C, 0x07, 0xEF, 0xE2, 0xFF, 0x11]);
    let given = Beside { record_id: RecordId::LAST, timestamp: Timestamp::from(7), generator: [0x41, 0x3F] };
    let entry = parsed(&message.to_record(given).unwrap()).unwrap();
    let expected = Entry::System {
        record_id: RecordId::LAST,
        timestamp: Timestamp::from(7),
        generator_id: EventGenerator::SoftwareId { software_id: 0x20, channel_number: numbered(3) },
        event_message_format: EventMessageRevision::V1_0,
        sensor_type: 0x0C,
        sensor_number: 0x07,
        event_direction: EventDirection::Deassert,
        event_type: 0x6F,
        event_data: EventData { offset: 2, data2_type: EventData2Type::Unspecified, data3_type: EventData3Type::OemCode(value(0x11)) },
        kept: Kept::new([0x41, 0x3F, 0xE2, 0xFF, 0x11]),
    };
    assert_eq!(entry, expected);
    assert_eq!(kept(&entry), kept(&expected));
}

#[test]
fn records_sent_as_messages() {
    assert_eq!(EventMessage::from_record(&RECORD), Ok(EventMessage(MESSAGE)));
    for length in 0..40 {
        let record: Vec<u8> = RECORD.into_iter().cycle().take(length).collect();
        let told = if length < 16 { Err(EventError::TooShort { needed: 16 }) } else { Ok(EventMessage(MESSAGE)) };
        assert_eq!(EventMessage::from_record(&record), told);
    }
    for byte in 0..=255 {
        let record = changed(RECORD, 2, byte);
        let told = if byte == 0x02 { Ok(EventMessage(MESSAGE)) } else { Err(EventError::NoSystemRecord(byte)) };
        assert_eq!(EventMessage::from_record(&record), told);
        // The length is told first.
        assert_eq!(EventMessage::from_record(&record[..15]), Err(EventError::TooShort { needed: 16 }));
        // Any channel.
        assert_eq!(EventMessage::from_record(&changed(RECORD, 8, byte)), Ok(EventMessage(MESSAGE)));
    }
}

#[test]
fn why_a_message_is_no_record() {
    let told = [
        (EventError::TooShort { needed: 7 }, 1, "too short, 7 bytes are needed"),
        (EventError::NoSystemRecord(0xC0), 2, "no system record, but type C0h"),
        (EventError::InvalidChannel(0xC), 3, "invalid channel Ch"),
        (EventError::TooLong, 8, "too long"),
    ];
    for (why, number, text) in told {
        assert_eq!((why.number(), why.to_string()), (number, text.to_string()));
    }
}
