//! Texts, which the library writes into a lent room and a formatter takes from there.

use std::fmt;
use std::str;
use std::sync::OnceLock;

use crate::ffi::{self, Answer};

// The longest text of each kind; both texts of a time have the same room, and so have both of event data.
const EVENT_ROOM: usize = 70;
const DATA_ROOM: usize = 26;
const TIME_ROOM: usize = 10;

// What the library asks for to fill a store of texts.
const STORE: usize = 6435;
const PLACES: usize = 640;

/// The store of all event texts, and where each stands in it.
struct Texts {
    store: [u8; STORE],
    starts: [u16; PLACES],
    lengths: [u8; PLACES],
}

/// Asked for once: the library has no read-only data, and lays the store out again for each text that is not lent it.
static TEXTS: OnceLock<Texts> = OnceLock::new();

fn texts() -> &'static Texts {
    TEXTS.get_or_init(|| {
        let mut texts = Texts { store: [0; STORE], starts: [0; PLACES], lengths: [0; PLACES] };
        ffi::texts(&mut texts.store, &mut texts.starts, &mut texts.lengths);
        texts
    })
}

fn written(f: &mut fmt::Formatter<'_>, answer: Answer, room: &[u8]) -> fmt::Result {
    let text = room.get(..answer.value).filter(|_| answer.number == 0).ok_or(fmt::Error)?;
    f.write_str(str::from_utf8(text).map_err(|_| fmt::Error)?)
}

pub(crate) fn event(f: &mut fmt::Formatter<'_>, event: [u8; 3]) -> fmt::Result {
    let mut room = [0; EVENT_ROOM];
    let Texts { store, starts, lengths } = texts();
    let answer = ffi::event_text_from((store, starts, lengths), event, &mut room);
    written(f, answer, &room)
}

pub(crate) fn data(f: &mut fmt::Formatter<'_>, data: [u8; 3]) -> fmt::Result {
    let mut room = [0; DATA_ROOM];
    let answer = ffi::data_text(data, &mut room);
    written(f, answer, &room)
}

pub(crate) fn typed_data(f: &mut fmt::Formatter<'_>, event_type: u8, data: [u8; 3]) -> fmt::Result {
    let mut room = [0; DATA_ROOM];
    let answer = ffi::typed_text(event_type, data, &mut room);
    written(f, answer, &room)
}

pub(crate) fn time(f: &mut fmt::Formatter<'_>, time: u32) -> fmt::Result {
    let mut room = [0; TIME_ROOM];
    let answer = ffi::time_text(time, &mut room);
    written(f, answer, &room)
}

pub(crate) fn log_time(f: &mut fmt::Formatter<'_>, time: u32) -> fmt::Result {
    let mut room = [0; TIME_ROOM];
    let answer = ffi::log_time_text(time, &mut room);
    written(f, answer, &room)
}
