//! Random calls, a hundred thousand of every function that the library stands behind, each with memory of exactly its length, so that
//! valgrind sees a byte too many. What is asserted is little: that a call comes back is the test.

use std::fmt;
use std::num::{NonZeroU16, NonZeroU8};

use dice::Dice;
use ipmi_sel::capture::{
    add_to_index, bytes_that_count, check_index, find, find_indexed, index_of, record_bytes, refusal, refused_length, refused_slots,
    same_entry, walk, walk_indexed, AnswerKind, IndexError, RefusedRecord, Walk, WalkError, SLOT,
};
use ipmi_sel::connection::{Channel, ChannelNumber, LogicalUnit, Version};
use ipmi_sel::events::{record_of, Beside, EventError, EventMessage};
use ipmi_sel::parts::{reads, GetEntryPart, Joining, Part, PartError};
use ipmi_sel::storage::sdr::{decode_event, EventData, SensorType, TypedData, TypedData2, TypedData3};
use ipmi_sel::storage::sel::{
    ClearSel, Entry, EventDirection, EventGenerator, EventMessageRevision, GetSelEntry, GetSelInfo, Kept, ParseEntryError, RecordId,
    ReserveSel, SelAllocInfo, SelGetAllocInfo, SelInfo,
};
use ipmi_sel::storage::{AllocInfo, Timestamp};
use ipmi_sel::Refusal;

mod dice;

const CALLS: u64 = 100_000;

/// Mostly about as long as answers are, now and then much longer.
fn length(dice: &mut Dice) -> usize {
    match dice.below(1000) {
        0 => dice.below(3000),
        1..=20 => dice.below(300),
        _ => dice.below(24),
    }
}

fn each_answer(mut test: impl FnMut(&[u8])) {
    for seed in 0..CALLS {
        let mut dice = Dice::new(seed.wrapping_mul(0x9E37_79B9_7F4A_7C15));
        let length = length(&mut dice);
        test(&dice.answer(length));
    }
}

/// The bytes that count, in a place of their own, are parsed as all of them are.
fn check_cut<T: PartialEq + fmt::Debug>(kind: AnswerKind, bytes: &[u8], parse: impl Fn(&[u8]) -> T) {
    if refused_length(kind, bytes.len()).is_none() {
        let cut: Box<[u8]> = bytes[..bytes_that_count(kind)].into();
        assert_eq!(parse(&cut), parse(bytes));
    }
}

fn each_bytes<const N: usize>(mut test: impl FnMut([u8; N])) {
    let mut dice = Dice::new(2);
    for _ in 0..CALLS {
        test(std::array::from_fn(|_| dice.byte()));
    }
}

/// An event's text, written to whatever is formatted.
struct Text<F: Fn(&mut fmt::Formatter<'_>) -> fmt::Result>(F);

impl<F: Fn(&mut fmt::Formatter<'_>) -> fmt::Result> fmt::Display for Text<F> {
    fn fmt(&self, f: &mut fmt::Formatter<'_>) -> fmt::Result {
        self.0(f)
    }
}

#[test]
fn entries() {
    each_answer(|bytes| {
        let entry = Entry::parse(bytes);
        assert_eq!(entry == Err(ParseEntryError::NotEnoughData), refused_length(AnswerKind::Entry, bytes.len()).is_some());
        check_refusal(AnswerKind::Entry, bytes, entry.err());
        check_cut(AnswerKind::Entry, bytes, Entry::parse);
    });
}

/// The refusal by itself: that of the length, where the length is refused, and mapped back the original's error.
fn check_refusal(kind: AnswerKind, bytes: &[u8], error: Option<ParseEntryError>) {
    let (refused, by_length) = (refusal(kind, bytes), refused_length(kind, bytes.len()));
    assert!(by_length.is_none() || refused == by_length);
    assert_eq!(refused.map(ParseEntryError::from), error);
}

/// The entries of records: each is written as its record. Remade, it is written as a record of the same entry, an OEM
/// record as it was.
#[test]
fn written_records() {
    let mut written = 0;
    each_answer(|bytes| {
        let Ok(entry) = Entry::parse(bytes) else { return };
        assert_eq!(entry.to_bytes().unwrap(), bytes[..16], "{bytes:02X?}");
        let record = entry.clone().remade().to_bytes().unwrap();
        assert_eq!(same_entry(&record, bytes), Ok(true), "{bytes:02X?}");
        assert!(bytes[2] == 0x02 || record == bytes[..16], "{bytes:02X?}");
        assert_eq!(Entry::parse(&record), Ok(entry), "{bytes:02X?}");
        written += 1;
    });
    assert!(written > 10_000, "{written} records were written");
}

/// A byte, that in half of the cases has no bit 7.
fn small(dice: &mut Dice) -> u8 {
    dice.byte() >> dice.below(2)
}

/// A system entry of any fields, and whether a record has them.
fn any_system(dice: &mut Dice, record_id: RecordId, timestamp: Timestamp) -> (Entry, bool) {
    let (id, event_type, offset, byte) = (small(dice), small(dice), small(dice) >> 3, dice.byte() % 8);
    let channel_number = Channel::new(dice.byte() % 12).unwrap();
    let generator_id = match dice.below(2) {
        0 => EventGenerator::RqSAAndLun { i2c_addr: id, channel_number, lun: LogicalUnit::from_low_bits(dice.byte()) },
        _ => EventGenerator::SoftwareId { software_id: id, channel_number },
    };
    let known = [EventMessageRevision::V2_0, EventMessageRevision::V1_0];
    let event_message_format = [known[dice.below(2)], EventMessageRevision::Unknown(byte)][dice.below(2)];
    let unknown = matches!(event_message_format, EventMessageRevision::Unknown(3 | 4));
    let entry = Entry::System {
        record_id,
        timestamp,
        generator_id,
        event_message_format,
        sensor_type: dice.byte(),
        sensor_number: dice.byte(),
        event_direction: [EventDirection::Assert, EventDirection::Deassert][dice.below(2)],
        event_type,
        event_data: EventData { offset, ..EventData::parse(&[dice.byte(), dice.byte(), dice.byte()]) },
        kept: Kept::FROM_FIELDS,
    };
    (entry, id <= 127 && event_type <= 127 && offset <= 15 && !unknown)
}

/// An entry of any fields, and whether a record has them.
fn any_entry(dice: &mut Dice) -> (Entry, bool) {
    let record_id = RecordId::new(dice.number() as u16).unwrap_or(RecordId::LAST);
    let timestamp = Timestamp::from(dice.number());
    let ty = [0xC0 + dice.byte() % 64, dice.byte()][dice.below(2)];
    match dice.below(4) {
        0 => {
            let manufacturer_id = dice.number() >> [0, 7, 8][dice.below(3)];
            let data = std::array::from_fn(|_| dice.byte());
            let has_record = (0xC0..=0xDF).contains(&ty) && manufacturer_id <= 0xFF_FFFF;
            (Entry::OemTimestamped { record_id, ty, timestamp, manufacturer_id, data }, has_record)
        }
        1 => (Entry::OemNotTimestamped { record_id, ty, data: std::array::from_fn(|_| dice.byte()) }, ty >= 0xE0),
        _ => any_system(dice, record_id, timestamp),
    }
}

#[test]
fn written_entries() {
    let mut dice = Dice::new(6);
    let mut written = 0;
    for _ in 0..CALLS {
        let (entry, has_record) = any_entry(&mut dice);
        let record = entry.to_bytes();
        assert_eq!(record.is_ok(), has_record, "{entry:?}");
        if let Ok(record) = record {
            assert_eq!(Entry::parse(&record), Ok(entry));
            written += 1;
        }
    }
    assert!((CALLS / 5..CALLS / 5 * 4).contains(&written), "{written} entries were written");
}

/// The places of a record's bytes that a system entry keeps.
const KEPT: [usize; 5] = [7, 8, 13, 14, 15];

/// A byte with none, some or all of its bits changed.
fn near(dice: &mut Dice, byte: u8) -> u8 {
    byte ^ [0, 1 << dice.below(8), 0b11 << dice.below(7), 0xFF, dice.byte()][dice.below(5)]
}

/// Fields beside bytes that are near those of their record: they are written exactly where the record with these bytes has
/// these fields, and then that is what is written.
#[test]
fn kept_bytes() {
    let mut dice = Dice::new(7);
    let (mut written, mut refused) = (0, 0);
    for _ in 0..CALLS {
        let (mut entry, has_record) = any_system(&mut dice, RecordId::FIRST, Timestamp::from(1000));
        let mut record = entry.to_bytes().unwrap_or([0; 16]);
        for place in KEPT {
            if dice.below(3) == 0 {
                record[place] = near(&mut dice, record[place]);
            }
        }
        let bytes = KEPT.map(|place| record[place]);
        if let Entry::System { kept, .. } = &mut entry {
            *kept = Kept::new(bytes);
        }
        match (entry.to_bytes(), Entry::parse(&record)) {
            (Ok(same), Ok(parsed @ Entry::System { kept, .. })) => {
                assert_eq!((same, parsed, kept.bytes(), has_record), (record, entry, Some(bytes), true));
                written += 1;
            }
            (told, parsed) => {
                assert!(told.is_err() && !(has_record && parsed == Ok(entry)), "{record:02X?}");
                refused += usize::from(has_record);
            }
        }
    }
    assert!(written > 5000 && refused > 5000, "{written} entries were written; of those that have a record, {refused} were refused");
}

/// A record, and mostly the same with a bit or two changed: what is said of the two is what `==` says of their entries.
#[test]
fn two_records() {
    let mut dice = Dice::new(5);
    let mut equal = 0;
    for _ in 0..CALLS {
        let length = [15, 16, 16, 16, 17, dice.below(24)][dice.below(6)];
        let record = dice.answer(length);
        let mut other = if dice.below(8) == 0 { dice.answer(16) } else { record.clone() };
        for _ in 0..dice.below(3) {
            // Mostly in the bytes that are not compared whole.
            let place = [8, 13, 14, 15, dice.below(24)][dice.below(5)];
            let bits = [1 << dice.below(8), 0xFF][dice.below(2)];
            if let Some(byte) = other.get_mut(place) {
                *byte ^= bits;
            }
        }
        let expected = match (Entry::parse(&record), Entry::parse(&other)) {
            (Err(_), _) => Err(RefusedRecord::First(refusal(AnswerKind::Entry, &record).unwrap())),
            (Ok(_), Err(_)) => Err(RefusedRecord::Second(refusal(AnswerKind::Entry, &other).unwrap())),
            (Ok(entry), Ok(other)) => Ok(entry == other),
        };
        assert_eq!(same_entry(&record, &other), expected, "{record:02X?} {other:02X?}");
        equal += usize::from(record != other && expected == Ok(true));
    }
    assert!(equal > 1000, "{equal} equal entries of records that differ");
}

#[test]
fn texts_of_entries() {
    each_bytes(|mut record: [u8; 16]| {
        // A system record of a channel that there is.
        (record[2], record[8]) = (0x02, record[8] & 0x7F);
        let entry = Entry::parse(&record).unwrap();
        assert!(Text(|f| entry.event_description(f)).to_string().len() <= 70);
    });
}

#[test]
fn get_entries() {
    each_answer(|bytes| {
        let info = GetSelEntry::parse_success_response(bytes);
        let refused = refused_length(AnswerKind::GetEntry, bytes.len()).is_some();
        assert_eq!(info.as_ref().err() == Some(&ParseEntryError::NotEnoughData), refused);
        check_refusal(AnswerKind::GetEntry, bytes, info.as_ref().err().copied());
        assert_eq!(record_bytes(bytes), if refused { &[] } else { &bytes[2..18] });
        if let Ok(info) = &info {
            assert_eq!(info.entry.to_bytes().unwrap(), record_bytes(bytes));
        }
        assert_eq!(info.map(|info| info.entry).ok(), Entry::parse(record_bytes(bytes)).ok());
        check_cut(AnswerKind::GetEntry, bytes, GetSelEntry::parse_success_response);
        check_cut(AnswerKind::GetEntry, bytes, |bytes| record_bytes(bytes).to_vec());
    });
}

/// The channel of a system record, where 1.5 reserves it and 2.0 does not.
fn channel_of_2_0_alone(record: &[u8]) -> Option<u8> {
    let channel = record.get(8)? >> 4;
    (record.len() >= 16 && record[2] == 0x02 && (0x8..=0xB).contains(&channel)).then_some(channel)
}

/// Under 2.0 what is said without a version, and under 1.5 too, but for such a channel.
fn check_versions<T: Clone + PartialEq + fmt::Debug>(
    record: &[u8],
    plain: Result<T, ParseEntryError>,
    by_version: impl Fn(Version) -> Result<T, Refusal>,
) -> bool {
    let newer = by_version(Version::V2_0);
    assert_eq!(newer.clone().map_err(ParseEntryError::from), plain, "{record:02X?}");
    let reserved = channel_of_2_0_alone(record);
    assert_eq!(by_version(Version::V1_5), reserved.map_or(newer, |channel| Err(Refusal::InvalidChannel(channel))), "{record:02X?}");
    reserved.is_some()
}

#[test]
fn entries_of_a_version() {
    let mut reserved = 0;
    each_answer(|bytes| {
        let by_version = |version| Entry::parse_in(version, bytes);
        reserved += usize::from(check_versions(bytes, Entry::parse(bytes), by_version));
        let by_version = |version| GetSelEntry::parse_success_response_in(version, bytes);
        reserved += usize::from(check_versions(record_bytes(bytes), GetSelEntry::parse_success_response(bytes), by_version));
    });
    assert!(reserved > 1000, "{reserved} records on channels that 1.5 alone reserves");
}

#[test]
fn infos() {
    each_answer(|bytes| {
        let refused = refused_length(AnswerKind::Info, bytes.len()).is_some();
        assert_eq!(GetSelInfo::parse_success_response(bytes).is_err(), refused);
        check_refusal(AnswerKind::Info, bytes, refused.then_some(ParseEntryError::NotEnoughData));
        assert!(SelInfo::from_data(bytes).map_or(0, |info| info.supported_cmds.len()) <= 4);
        check_cut(AnswerKind::Info, bytes, |bytes| format!("{:?}", SelInfo::from_data(bytes)));
    });
}

#[test]
fn allocations() {
    each_answer(|bytes| {
        let refused = refused_length(AnswerKind::Allocation, bytes.len()).is_some();
        check_refusal(AnswerKind::Allocation, bytes, refused.then_some(ParseEntryError::NotEnoughData));
        assert_eq!(SelGetAllocInfo::parse_success_response(bytes).is_err(), refused);
        assert_eq!(SelAllocInfo::parse(bytes).is_none(), refused);
        assert_eq!(AllocInfo::parse(bytes).is_none(), refused);
        check_cut(AnswerKind::Allocation, bytes, |bytes| format!("{:?}", AllocInfo::parse(bytes)));
    });
}

#[test]
fn reservations_and_clearings() {
    each_answer(|bytes| {
        let reservation = ReserveSel::parse_success_response(bytes);
        let (short, empty) = (bytes.len() < 2, bytes.is_empty());
        let none = refusal(AnswerKind::Reserve, bytes) == Some(Refusal::NoReservation);
        assert_eq!(none, !short && bytes[..2] == [0, 0]);
        assert_eq!(reservation.is_err(), short || none);
        assert_eq!(ClearSel::parse_success_response(bytes).is_err(), empty);
        check_refusal(AnswerKind::Reserve, bytes, reservation.is_err().then_some(ParseEntryError::NotEnoughData));
        check_refusal(AnswerKind::Clear, bytes, empty.then_some(ParseEntryError::NotEnoughData));
        check_cut(AnswerKind::Reserve, bytes, ReserveSel::parse_success_response);
        check_cut(AnswerKind::Clear, bytes, ClearSel::parse_success_response);
    });
}

#[test]
fn requests() {
    each_bytes(|[b1, b2, b3, b4]| {
        let reservation = NonZeroU16::new(u16::from_le_bytes([b1, b2]));
        let id = RecordId::new(u16::from_le_bytes([b3, b4])).unwrap_or(RecordId::FIRST);
        assert_eq!(GetSelEntry::new(reservation, id).request().payload().len(), 6);
        assert_eq!(ClearSel::initiate(reservation).request().payload().len(), 6);
        assert_eq!(ClearSel::get_status(reservation).request().payload().len(), 6);
        for request in [GetSelInfo.request(), SelGetAllocInfo.request(), ReserveSel.request()] {
            assert_eq!(request.payload(), []);
        }
    });
}

#[test]
fn event_data_and_texts() {
    each_bytes(|[b1, b2, b3]| {
        let data = EventData::parse(&[b1, b2, b3]);
        let lengths = [data.to_string().len(), data.data2_type.to_string().len(), data.data3_type.to_string().len()];
        assert!(lengths.iter().all(|length| *length <= 26));
        let (typed, text) = (TypedData::parse(b1, &[b2, b3, b1]), TypedData::text(b1, &[b2, b3, b1]).to_string());
        let decoded = EventData::parse(&[b2, b3, b1]);
        assert!(text.len() <= 26 && text == decoded.text_by_type(b1).to_string());
        // The two readings differ in a previous state and in what is reserved alone.
        let other = matches!(typed.data2, TypedData2::PreviousState(_) | TypedData2::Reserved) || typed.data3 == TypedData3::Reserved;
        assert!(other || text == decoded.to_string());
        assert!(!other || matches!(b1 & 0x7F, 0x02..=0x0C | 0x6F..=0x7F));
        let text = |event_type| Text(move |f: &mut fmt::Formatter<'_>| decode_event(f, event_type, SensorType::from(b2), b3)).to_string();
        assert!(text(b1).len() <= 70 && text(0x6F).len() <= 70 && text(b1 % 16).len() <= 70);
    });
}

#[test]
fn times() {
    each_bytes(|bytes| {
        let number = u32::from_le_bytes(bytes);
        let time = Timestamp::from(number);
        let (text, log) = (time.to_string(), time.log_text().to_string());
        assert!((1..=10).contains(&text.len()) && (1..=10).contains(&log.len()));
        assert_eq!(log.starts_with('+'), (1..=0x2000_0000).contains(&number));
        assert_eq!(log == text, number == 0 || (0x2000_0001..=0xFFFF_FFFE).contains(&number));
    });
}

#[test]
fn ids_channels_units() {
    each_bytes(|[b1, b2]| {
        let id = RecordId::new(u16::from_le_bytes([b1, b2]));
        assert!(!id.is_some_and(|id| id.is_first() || id.is_last()));
        assert_eq!(Channel::new(b1).map_or(b1, |channel| channel.value()), b1);
        assert_eq!(NonZeroU8::new(b1).and_then(ChannelNumber::new).map_or(b1, |number| number.value().get()), b1);
        assert!(LogicalUnit::try_from(b1).is_ok_and(|unit| unit.value() == b1) == (b1 < 4));
        assert_eq!(LogicalUnit::from_low_bits(b1).value(), b1 % 4);
        assert_eq!(EventGenerator::try_from((b1, b2)).is_ok(), Channel::new(b2 >> 4).is_some());
        assert_eq!(matches!(EventMessageRevision::from(b1), EventMessageRevision::Unknown(_)), b1 != 3 && b1 != 4);
    });
}

#[test]
fn lengths() {
    use AnswerKind::*;
    let mut dice = Dice::new(3);
    for _ in 0..CALLS {
        let length = usize::MAX >> dice.below(64);
        for kind in [Entry, GetEntry, Info, Allocation, Reserve, Clear] {
            let needed = bytes_that_count(kind);
            let too_long = (kind == Info && length > needed).then_some(Refusal::TooLong);
            assert_eq!(refused_length(kind, length), if length < needed { Some(Refusal::TooShort { needed }) } else { too_long });
        }
        let slots = length / SLOT;
        assert_eq!(refused_slots(slots * SLOT), slots > 3000);
        assert_eq!(refused_slots(length), length % SLOT != 0 || slots > 3000);
    }
}

/// Slots with ids from few, so that there are chains, circles and gaps; now and then a byte too many or too few.
fn capture(dice: &mut Dice, slots: usize) -> Box<[u8]> {
    let ids = slots + 1 + dice.below(2);
    let mut bytes = dice.bytes(slots * SLOT).into_vec();
    for slot in 0..slots {
        let next = if dice.below(8) == 0 { u16::MAX } else { dice.below(ids) as u16 };
        bytes[slot * SLOT..][..2].copy_from_slice(&(dice.below(ids) as u16).to_le_bytes());
        bytes[slot * SLOT + 2..][..2].copy_from_slice(&next.to_le_bytes());
    }
    match dice.below(16) {
        0 => bytes.push(0),
        1 => drop(bytes.pop()),
        _ => (),
    }
    bytes.into_boxed_slice()
}

fn check_walk(dice: &mut Dice, slots: &[u8], budget: usize) {
    let n = slots.len() / SLOT;
    let places = (n + dice.below(4)).saturating_sub(1);
    let mut list = vec![0xEEEE; places].into_boxed_slice();
    let bad = slots.len() % SLOT != 0 || n > 3000;
    assert_eq!(refused_slots(slots.len()), bad);
    let read = match walk(slots, budget, &mut list) {
        Ok(Walk { read, .. }) => {
            assert!(!bad && places >= n && read <= n.min(budget));
            read
        }
        Err(why) => {
            assert_eq!(why, if bad { WalkError::BadCapture } else { WalkError::NoRoom(n) });
            assert!(bad || places < n);
            0
        }
    };
    assert!(list[..read].iter().all(|slot| usize::from(*slot) < n));
    assert!(list[read..].iter().all(|place| *place == 0xEEEE));
}

#[test]
fn walks_and_finds() {
    let mut dice = Dice::new(4);
    for call in 0..CALLS {
        let slots = match call % 10_000 {
            0 => [2999, 3000, 3001][dice.below(3)],
            _ => dice.below(12),
        };
        let slots = capture(&mut dice, slots);
        let budget = [dice.below(14), dice.below(4000), usize::MAX][dice.below(3)];
        check_walk(&mut dice, &slots, budget);

        let id = RecordId::new(dice.below(14) as u16).unwrap_or(RecordId::FIRST);
        let first = slots.chunks_exact(SLOT).position(|slot| slot[..2] == id.value().to_le_bytes());
        assert_eq!(find(&slots, id), first);
    }
}

fn asked(slots: &[u8], slot: usize) -> u16 {
    u16::from_le_bytes([slots[slot * SLOT], slots[slot * SLOT + 1]])
}

/// What the index of the whole slots must be, in a place of its own, by a sort that keeps the order of equal ids.
fn sorted(slots: &[u8]) -> Box<[u16]> {
    let mut numbers: Vec<_> = (0..(slots.len() / SLOT) as u16).collect();
    numbers.sort_by_key(|number| asked(slots, usize::from(*number)));
    numbers.into_boxed_slice()
}

/// The index, or with a number changed, moved, left out or put in; or any numbers.
fn near_index(dice: &mut Dice, right: &[u16]) -> Box<[u16]> {
    let n = right.len();
    let mut numbers = right.to_vec();
    let any = [dice.below(n + 2) as u16, dice.number() as u16][dice.below(2)];
    match dice.below(8) {
        0 if n > 0 => numbers[dice.below(n)] = any,
        1 if n > 1 => numbers.swap(dice.below(n), dice.below(n)),
        2 if n > 1 => {
            let place = dice.below(n - 1);
            numbers.swap(place, place + 1);
        }
        3 if n > 0 => drop(numbers.remove(dice.below(n))),
        4 => numbers.insert(dice.below(n + 1), any),
        5 => numbers = (0..dice.below(n + 3)).map(|_| dice.below(n + 1) as u16).collect(),
        _ => (),
    }
    numbers.into_boxed_slice()
}

/// The slots with this list of numbers: what is right of it by the sort, and what is said without an index.
fn check_indexed(dice: &mut Dice, slots: &[u8], right: &[u16], numbers: &[u16]) -> bool {
    let refused = match () {
        _ if refused_slots(slots.len()) => Some(IndexError::BadCapture),
        _ if numbers != right => Some(IndexError::WrongIndex),
        _ => None,
    };
    assert_eq!(check_index(slots, numbers).err(), refused);

    let id = RecordId::new(dice.below(14) as u16).unwrap_or([RecordId::FIRST, RecordId::LAST][dice.below(2)]);
    let found = find_indexed(slots, numbers, id);
    assert!(found.map_or(true, |slot| slot < right.len() && asked(slots, slot) == id.value()));
    assert!(numbers != right || found == find(slots, id));

    let budget = [dice.below(14), dice.below(4000), usize::MAX][dice.below(3)];
    let places = (right.len() + dice.below(4)).saturating_sub(1);
    let mut lists = [(); 2].map(|()| vec![0xEEEE; places].into_boxed_slice());
    let walked = walk_indexed(slots, numbers, budget, &mut lists[0]);
    let expected = match refused {
        None | Some(IndexError::BadCapture) => walk(slots, budget, &mut lists[1]),
        Some(IndexError::WrongIndex) => Err(WalkError::WrongIndex),
    };
    assert_eq!((walked, &lists[0]), (expected, &lists[1]));
    refused.is_none()
}

/// The index of all slots but the last, or a list near it, extended.
fn check_added(dice: &mut Dice, slots: &[u8], right: &[u16]) -> bool {
    let n = right.len();
    let before: Box<[u16]> = right.iter().copied().filter(|number| usize::from(*number) + 1 < n).collect();
    let numbers = near_index(dice, &before);
    let mut index = numbers.to_vec();
    let refused = match () {
        _ if refused_slots(slots.len()) => Some(IndexError::BadCapture),
        _ if !numbers.starts_with(&before) => Some(IndexError::WrongIndex),
        _ => None,
    };
    assert_eq!(add_to_index(slots, &mut index).err(), refused);
    assert_eq!(index, if refused.is_some() { &numbers[..] } else { right });
    refused.is_none()
}

#[test]
fn indexes() {
    let mut dice = Dice::new(8);
    let (mut taken, mut added) = (0, 0);
    for call in 0..CALLS {
        let slots = match call % 10_000 {
            0 => [2999, 3000, 3001][dice.below(3)],
            _ => dice.below(12),
        };
        let slots = capture(&mut dice, slots);
        let right = sorted(&slots);
        let made = index_of(&slots);
        assert_eq!(made.as_deref().ok(), (!refused_slots(slots.len())).then_some(&right[..]));
        let numbers = near_index(&mut dice, &right);
        taken += usize::from(check_indexed(&mut dice, &slots, &right, &numbers));
        added += usize::from(check_added(&mut dice, &slots, &right));
    }
    assert!((CALLS / 5..CALLS / 5 * 4).contains(&(taken as u64)), "{taken} indexes were right");
    assert!((CALLS / 5..CALLS / 5 * 4).contains(&(added as u64)), "{added} slots were added");
}

/// At most so many bytes at once: mostly few.
fn any_most(dice: &mut Dice) -> u8 {
    [dice.byte() % 18, dice.byte()][usize::from(dice.below(4) == 0)]
}

#[test]
fn reads_and_requests_for_a_part() {
    let mut asked = 0;
    each_bytes(|[b1, b2, b3, b4, offset, count]| {
        let (reservation, id) = (NonZeroU16::new(u16::from_le_bytes([b1, b2])), RecordId::new(u16::from_le_bytes([b3, b4])));
        let (id, offset) = (id.unwrap_or(RecordId::LAST), offset >> (b1 % 5));
        let bytes_to_read = count >> (b2 % 6);
        let part = bytes_to_read != 0 && u16::from(offset) + u16::from(bytes_to_read) <= 16;
        let told = GetEntryPart::new(reservation, id, Part { offset, bytes_to_read });
        let refused = if reservation.is_none() { Some(PartError::Unreserved) } else { (!part).then_some(PartError::NoSuchPart) };
        assert_eq!(told.as_ref().err().copied(), refused);
        let [id_low, id_high] = id.value().to_le_bytes();
        assert_eq!(told.as_ref().map_or(0, |told| told.request().payload().len()), if refused.is_none() { 6 } else { 0 });
        if let Ok(told) = told {
            assert_eq!(told.request().payload(), [b1, b2, id_low, id_high, offset, bytes_to_read]);
            asked += 1;
        }
        let listed = reads(b1);
        assert_eq!(
            listed.as_ref().map_or(0, |reads| reads.iter().map(|read| u16::from(read.bytes_to_read)).sum()),
            if b1 == 0 { 0 } else { 16 }
        );
        assert_eq!(listed.map(|reads| reads.len()).ok(), (b1 != 0).then(|| (15 + usize::from(b1)) / usize::from(b1)));
    });
    assert!(asked > 10_000, "{asked} parts were asked for");
}

/// An answer to the read that is next, or one near it, in a place of its own.
fn any_answer(dice: &mut Dice, next: u16, part: &[u8]) -> Box<[u8]> {
    let mut answer = [&next.to_le_bytes()[..], part].concat();
    match dice.below(10) {
        0 => drop(answer.pop()),
        1 => answer.push(dice.byte()),
        2 => answer.truncate(dice.below(answer.len() + 1)),
        3 => answer.resize(dice.below(600), 0),
        4 => answer[dice.below(2)] ^= 1 << dice.below(8),
        _ => (),
    }
    answer.into_boxed_slice()
}

/// Records of any bytes, from answers of which some are refused.
#[test]
fn joinings() {
    let mut dice = Dice::new(9);
    let (mut calls, mut refused, mut whole) = (0, 0, 0);
    while calls < CALLS {
        let (m, record) = (any_most(&mut dice), dice.bytes(16));
        let next = dice.number() as u16;
        let (mut joining, mut had, mut taken) = (Joining::new(m), None, Vec::new());
        for _ in 0..20 {
            let (got, before) = (taken.len(), joining.clone());
            let count = usize::from(m).min(16 - got);
            let answer = any_answer(&mut dice, had.unwrap_or(next), &record[got..][..count]);
            let id = answer.get(..2).map(|id| u16::from_le_bytes([id[0], id[1]]));
            let expected = match () {
                _ if m == 0 => Err(PartError::NoBytes),
                _ if got == 16 => Err(PartError::NoSuchPart),
                _ if answer.len() < 2 + count => Err(PartError::TooShort { needed: 2 + count }),
                _ if answer.len() > 2 + count => Err(PartError::TooLong),
                _ if had.is_some() && had != id => Err(PartError::NextDiffers),
                _ => Ok(()),
            };
            assert_eq!(joining.take(&answer), expected, "{answer:02X?}");
            if expected.is_ok() {
                taken.extend(&answer[2..]);
                had = id;
            } else {
                assert_eq!(joining, before);
                refused += 1;
            }
            calls += 1;
            assert_eq!(joining.got(), taken.len());
            let joined = had.map(|id| [&id.to_le_bytes()[..], &taken].concat());
            assert_eq!(joining.answer().map(Vec::from), joined.filter(|_| taken.len() == 16));
        }
        if let Some(answer) = joining.answer() {
            assert_eq!(record_bytes(&answer), &taken[..]);
            assert_eq!(GetSelEntry::parse_success_response(&answer).map(|info| info.entry), Entry::parse(&taken));
            whole += 1;
        }
    }
    assert!(refused > CALLS / 5 && whole > CALLS / 100, "{refused} answers were refused, and {whole} records joined");
}

/// Messages of any bytes, mostly seven, with anything beside them: those that are made records come back.
#[test]
fn messages_made_records() {
    let mut dice = Dice::new(10);
    let (mut made, mut refused) = (0, 0);
    for _ in 0..CALLS {
        let length = [7, 7, 7, length(&mut dice)][dice.below(4)];
        let (message, generator) = (dice.bytes(length), [dice.byte(), dice.byte()]);
        let (id, time) = ([dice.byte(), dice.byte()], dice.number());
        let record_id = RecordId::new(u16::from_le_bytes(id)).unwrap_or([RecordId::FIRST, RecordId::LAST][dice.below(2)]);
        let told = record_of(&message, Beside { record_id, timestamp: Timestamp::from(time), generator });
        let channel = generator[1] >> 4;
        let expected = match length {
            0..=6 => Err(EventError::TooShort { needed: 7 }),
            8.. => Err(EventError::TooLong),
            _ if channel == 0xC || channel == 0xD => Err(EventError::InvalidChannel(channel)),
            _ => Ok([&record_id.value().to_le_bytes()[..], &[0x02], &time.to_le_bytes(), &generator, &message].concat()),
        };
        assert_eq!(told.map(Vec::from), expected, "{message:02X?}");
        refused += usize::from(told.is_err());
        if let Ok(record) = told {
            assert_eq!(EventMessage::from_record(&record).unwrap().0, message[..]);
            assert_eq!(Entry::parse(&record).unwrap().to_bytes(), Ok(record));
            made += 1;
        }
    }
    assert!(made > CALLS / 2 && refused > 10_000, "{made} records were made, and {refused} messages refused");
}

/// Records of any bytes: those that are sent as messages come back, on a channel that there is.
#[test]
fn records_sent_as_messages() {
    let (mut sent, mut refused) = (0, 0);
    each_answer(|bytes| {
        let told = EventMessage::from_record(bytes);
        let expected = match bytes {
            [_, _, 0x02, ..] if bytes.len() >= 16 => Ok(&bytes[9..16]),
            [_, _, record_type, ..] if bytes.len() >= 16 => Err(EventError::NoSystemRecord(*record_type)),
            _ => Err(EventError::TooShort { needed: 16 }),
        };
        assert_eq!(told.as_ref().map(|message| &message.0[..]).map_err(|why| *why), expected, "{bytes:02X?}");
        refused += usize::from(told.is_err());
        if let (Ok(message), Ok(Entry::System { record_id, timestamp, kept, .. })) = (told, Entry::parse(bytes)) {
            let [first, second, ..] = kept.bytes().unwrap();
            let record = message.to_record(Beside { record_id, timestamp, generator: [first, second] });
            assert_eq!(record.unwrap(), bytes[..16], "{bytes:02X?}");
            sent += 1;
        }
    });
    assert!(sent > 5000 && refused > 10_000, "{sent} records were sent and came back, and {refused} refused");
}
