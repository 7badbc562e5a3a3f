//! What ipmi-rs-core does not have: the walk along a captured log, with an index of its slots and without, the record's part of an answer, two
//! records compared by their bytes, why an answer is refused, and what a length alone decides.
//!
//! A capture is slots of [`SLOT`] bytes: the asked id, the next id that was answered, and the record. At most 3,000 slots are walked.
//!
//! The index of a capture is the numbers of its slots in order of asked id, equal ids in slot order. Of any slots there is exactly one. Kept
//! beside them, it finds a slot by halving: [`index_of`] makes it, [`add_to_index`] extends it by a slot, [`check_index`] tells whether it is that
//! of these slots, and [`find_indexed`] and [`walk_indexed`] use it.

use crate::ffi::{self, Answer};
use crate::flat::Flat;
use crate::refusal::NO_ROOM;
use crate::storage::sel::RecordId;
use crate::Refusal;

pub use crate::refusal::IndexError;

/// The bytes of a slot.
pub const SLOT: usize = 20;

/// How the chain of ids goes on from 0000h.
#[derive(Debug, Clone, Copy, PartialEq)]
pub enum Verdict {
    /// It comes to FFFFh.
    Ended,
    /// No slot has this id.
    Missing(RecordId),
    /// There were no more lookups, and this id is next.
    Spent(RecordId),
    /// It never ends.
    Circle,
}

/// What was found: the first `read` places of the list are the numbers of the slots, in the chain's order.
#[derive(Debug, Clone, Copy, PartialEq)]
pub struct Walk {
    pub verdict: Verdict,
    pub read: usize,
}

/// Why there was no walk; the list is then as it was.
#[derive(Debug, Clone, Copy, PartialEq)]
pub enum WalkError {
    /// The list has fewer places than there are slots, which are so many.
    NoRoom(usize),
    /// The bytes are not a multiple of [`SLOT`], or over 60,000.
    BadCapture,
    /// The index is not that of these slots: of [`walk_indexed`] alone.
    WrongIndex,
}

impl From<IndexError> for WalkError {
    fn from(refused: IndexError) -> Self {
        match refused {
            IndexError::BadCapture => Self::BadCapture,
            IndexError::WrongIndex => Self::WrongIndex,
        }
    }
}

/// Follows the chain for at most `budget` lookups. One more than there are slots always tells how the chain goes on.
pub fn walk(slots: &[u8], budget: usize, list: &mut [u16]) -> Result<Walk, WalkError> {
    walked(ffi::walk(slots, budget, list))
}

fn walked(answer: ffi::Walk) -> Result<Walk, WalkError> {
    let id = RecordId::new_raw(answer.ask);
    let verdict = match (answer.number, answer.verdict) {
        (0, 0) => Verdict::Ended,
        (0, 1) => Verdict::Missing(id),
        (0, 2) => Verdict::Spent(id),
        (0, _) => Verdict::Circle,
        (NO_ROOM, _) => return Err(WalkError::NoRoom(answer.needed as usize)),
        (number, _) => return Err(IndexError::told(number).into()),
    };
    Ok(Walk { verdict, read: answer.read as usize })
}

/// The number of the first slot with an asked id, from 0.
pub fn find(slots: &[u8], id: RecordId) -> Option<usize> {
    found(ffi::find(slots, id.value()))
}

fn found(answer: ffi::Found) -> Option<usize> {
    (answer.found == 1).then_some(answer.slot)
}

/// The index of these slots, a number for each: what [`check_index`] takes, and nothing else.
pub fn index_of(slots: &[u8]) -> Result<Vec<u16>, IndexError> {
    // Before memory is asked for, so that a length that is refused anyway takes none.
    let places = if refused_slots(slots.len()) { 0 } else { slots.len() / SLOT };
    let (mut index, mut scratch) = (vec![0; places], vec![0; places]);
    accepted(ffi::index_make(slots, &mut index, &mut scratch).number).map(|()| index)
}

/// Extends an index by the last slot, which was added behind the others: from that of the slots before it to that of all of them.
///
/// It is wrong where it does not begin with the index of the slots before the last. A refused one is as it was. An accepted one is the index of
/// these slots, and has no more places than that; of no slots it has none.
pub fn add_to_index(slots: &[u8], index: &mut Vec<u16>) -> Result<(), IndexError> {
    let before = index.len();
    // The place that is needed. No slot has this number, so an index of too few places is not taken for a longer one.
    index.push(u16::MAX);
    let answer = ffi::index_add(slots, index);
    let added = accepted(answer.number);
    index.truncate(if added.is_ok() { answer.value } else { before });
    added
}

/// Whether it is the index of these slots, told in one pass: of as many numbers as there are slots.
pub fn check_index(slots: &[u8], index: &[u16]) -> Result<(), IndexError> {
    accepted(ffi::index_check(slots, index))
}

fn accepted(number: u32) -> Result<(), IndexError> {
    match number {
        0 => Ok(()),
        _ => Err(IndexError::told(number)),
    }
}

/// The number of the first slot with an asked id, by halving: with the index of these slots, which is not checked here, what [`find`] answers.
///
/// Any other numbers are safe to give too, and a slot that is named then was asked for with the id; but it may be a later one, and `None` may be
/// answered though there is one.
pub fn find_indexed(slots: &[u8], index: &[u16], id: RecordId) -> Option<usize> {
    found(ffi::find_indexed(slots, index, id.value()))
}

/// As [`walk`], by an index, which is checked once: with that of these slots what [`walk`] answers, and the list as it leaves it.
pub fn walk_indexed(slots: &[u8], index: &[u16], budget: usize, list: &mut [u16]) -> Result<Walk, WalkError> {
    walked(ffi::walk_indexed(slots, index, budget, list))
}

/// The record's sixteen bytes in a get-entry answer; of an answer under 18 bytes an empty part.
pub fn record_bytes(answer: &[u8]) -> &[u8] {
    let part = ffi::decode(b'p', answer, &mut [0; 16]).value;
    answer.get(2..2 + part).unwrap_or(&[])
}

/// Which of two records is refused first, and why.
#[derive(Debug, Clone, Copy, PartialEq)]
pub enum RefusedRecord {
    First(Refusal),
    Second(Refusal),
}

/// Whether two records have equal entries, told from their bytes: what `==` says of the entries that `Entry::parse` makes of them. The records may
/// differ in what no field holds; the project's docs/SCOPE.md, "What equal entries overlook", lists it.
pub fn same_entry(a: &[u8], b: &[u8]) -> Result<bool, RefusedRecord> {
    let answer = ffi::same_entry(a, b);
    let why = || Refusal::told(Answer { number: answer.number, value: answer.value as usize });
    match answer.refused {
        0 => Ok(answer.same == 1),
        1 => Err(RefusedRecord::First(why())),
        _ => Err(RefusedRecord::Second(why())),
    }
}

/// What an answer is read as.
#[derive(Debug, Clone, Copy, PartialEq)]
pub enum AnswerKind {
    Entry,
    GetEntry,
    Info,
    Allocation,
    Reserve,
    Clear,
}

impl AnswerKind {
    fn letter(self) -> u8 {
        match self {
            AnswerKind::Entry => b'e',
            AnswerKind::GetEntry => b'g',
            AnswerKind::Info => b'i',
            AnswerKind::Allocation => b'a',
            AnswerKind::Reserve => b'r',
            AnswerKind::Clear => b'c',
        }
    }
}

/// Why an answer, read as this kind, is refused; `None` where it is accepted. Finer than the error of the original's own functions, which is `From` it.
pub fn refusal(kind: AnswerKind, answer: &[u8]) -> Option<Refusal> {
    Flat::decode(kind.letter(), answer).err().map(Refusal::told)
}

/// Why every answer of this kind and length is refused, before there is a byte of it: too short, with the length needed, or, an info answer, too long.
/// `None` where an answer of that length may be read.
pub fn refused_length(kind: AnswerKind, length: usize) -> Option<Refusal> {
    let answer = ffi::length(kind.letter(), length);
    (answer.number != 0).then(|| Refusal::told(answer))
}

/// How many bytes of an answer count: one whose length is not refused, cut to so many, is answered the same. At most 18.
pub fn bytes_that_count(kind: AnswerKind) -> usize {
    ffi::bytes_that_count(kind.letter())
}

/// Whether every capture of this length is refused as [`WalkError::BadCapture`], before there is a byte of it.
pub fn refused_slots(length: usize) -> bool {
    ffi::slots_length(length) != 0
}
