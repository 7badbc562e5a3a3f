//! The library's functions, each behind a safe one. None of them asks anything of its input, and a slice is a pointer and a length: so a call
//! is sound for any slices that Rust can lend.

#[repr(C)]
pub(crate) struct Answer {
    pub number: u32,
    pub value: usize,
}

#[repr(C)]
pub(crate) struct Found {
    pub found: usize,
    pub slot: usize,
}

#[repr(C)]
pub(crate) struct Joined {
    pub number: u32,
    pub value: u32,
    pub next: u16,
    pub got: u8,
}

#[repr(C)]
pub(crate) struct Same {
    pub number: u32,
    pub value: u32,
    pub same: u32,
    pub refused: u32,
}

#[repr(C)]
pub(crate) struct TypedData {
    pub offset: u8,
    pub kind2: u8,
    pub value2: u8,
    pub kind3: u8,
    pub value3: u8,
}

#[repr(C)]
pub(crate) struct Walk {
    pub number: u32,
    pub verdict: u16,
    pub ask: u16,
    pub read: u32,
    pub needed: u32,
}

mod library {
    use super::{Answer, Found, Joined, Same, TypedData, Walk};

    extern "C" {
        pub fn sel_entry(data: *const u8, data_length: usize, out: *mut u8, out_length: usize) -> Answer;
        pub fn sel_write_entry(flat: *const u8, flat_length: usize, out: *mut u8, out_length: usize) -> Answer;
        pub fn sel_keep(data: *const u8, data_length: usize, out: *mut u8, out_length: usize) -> Answer;
        pub fn sel_write_kept(
            kept: *const u8,
            kept_length: usize,
            flat: *const u8,
            flat_length: usize,
            out: *mut u8,
            out_length: usize,
        ) -> Answer;
        pub fn sel_event_to_record(
            record_id: u16,
            time: u32,
            generator1: u8,
            generator2: u8,
            message: *const u8,
            message_length: usize,
            out: *mut u8,
            out_length: usize,
        ) -> Answer;
        pub fn sel_record_to_event(record: *const u8, record_length: usize, out: *mut u8, out_length: usize) -> Answer;
        pub fn sel_same_entry(a: *const u8, a_length: usize, b: *const u8, b_length: usize) -> Same;
        pub fn sel_get_entry(data: *const u8, data_length: usize, out: *mut u8, out_length: usize) -> Answer;
        pub fn sel_entry_of(version: u8, data: *const u8, data_length: usize, out: *mut u8, out_length: usize) -> Answer;
        pub fn sel_get_entry_of(version: u8, data: *const u8, data_length: usize, out: *mut u8, out_length: usize) -> Answer;
        pub fn sel_allocation(data: *const u8, data_length: usize, out: *mut u8, out_length: usize) -> Answer;
        pub fn sel_decode(kind: u8, data: *const u8, data_length: usize, out: *mut u8, out_length: usize) -> Answer;
        pub fn sel_length(kind: u8, len: usize) -> Answer;
        pub fn sel_ported(number: u32, value: usize) -> Answer;
        pub fn sel_bytes_that_count(kind: u8) -> usize;
        pub fn sel_texts(
            store: *mut u8,
            store_length: usize,
            starts: *mut u16,
            starts_length: usize,
            lengths: *mut u8,
            lengths_length: usize,
        ) -> Answer;
        pub fn sel_event_text_from(
            store: *const u8,
            store_length: usize,
            starts: *const u16,
            starts_length: usize,
            lengths: *const u8,
            lengths_length: usize,
            event_type: u8,
            sensor_type: u8,
            offset: u8,
            out: *mut u8,
            out_length: usize,
        ) -> Answer;
        pub fn sel_data_text(b1: u8, b2: u8, b3: u8, out: *mut u8, out_length: usize) -> Answer;
        pub fn sel_typed_data(event_type: u8, b1: u8, b2: u8, b3: u8) -> TypedData;
        pub fn sel_typed_text(event_type: u8, b1: u8, b2: u8, b3: u8, out: *mut u8, out_length: usize) -> Answer;
        pub fn sel_time_text(time: u32, out: *mut u8, out_length: usize) -> Answer;
        pub fn sel_log_time_text(time: u32, out: *mut u8, out_length: usize) -> Answer;
        pub fn sel_request(command: u8, reservation: u16, argument: u16, out: *mut u8, out_length: usize) -> Answer;
        pub fn sel_reads(m: u8, out: *mut u8, out_length: usize) -> Answer;
        pub fn sel_request_part(
            reservation_id: u16,
            record_id: u16,
            offset: u8,
            bytes_to_read: u8,
            out: *mut u8,
            out_length: usize,
        ) -> Answer;
        pub fn sel_join(
            m: u8,
            got: u8,
            next: u16,
            answer: *const u8,
            answer_length: usize,
            record: *mut u8,
            record_length: usize,
        ) -> Joined;
        pub fn sel_channel(number: u8) -> Answer;
        pub fn sel_unit(number: u8) -> Answer;
        pub fn sel_slots_length(len: usize) -> u32;
        pub fn sel_find(slots: *const u8, slots_length: usize, id: u16) -> Found;
        pub fn sel_walk(slots: *const u8, slots_length: usize, budget: usize, list: *mut u16, list_length: usize) -> Walk;
        pub fn sel_index_make(
            slots: *const u8,
            slots_length: usize,
            index: *mut u16,
            index_length: usize,
            scratch: *mut u16,
            scratch_length: usize,
        ) -> Answer;
        pub fn sel_index_add(slots: *const u8, slots_length: usize, index: *mut u16, index_length: usize) -> Answer;
        pub fn sel_index_check(slots: *const u8, slots_length: usize, index: *const u16, index_length: usize) -> u32;
        pub fn sel_find_indexed(slots: *const u8, slots_length: usize, index: *const u16, index_length: usize, id: u16) -> Found;
        pub fn sel_walk_indexed(
            slots: *const u8,
            slots_length: usize,
            index: *const u16,
            index_length: usize,
            budget: usize,
            list: *mut u16,
            list_length: usize,
        ) -> Walk;
    }
}

// SAFETY, of every call below: each pointer and length are those of a live slice, and what is lent mutably is lent to this call alone. The
// library reads and writes inside the slices, and ends, whatever they hold: that is proved of each of its functions.

pub(crate) fn entry(data: &[u8], out: &mut [u8]) -> Answer {
    unsafe { library::sel_entry(data.as_ptr(), data.len(), out.as_mut_ptr(), out.len()) }
}

pub(crate) fn write_entry(flat: &[u8], out: &mut [u8]) -> Answer {
    unsafe { library::sel_write_entry(flat.as_ptr(), flat.len(), out.as_mut_ptr(), out.len()) }
}

pub(crate) fn keep(data: &[u8], out: &mut [u8]) -> Answer {
    unsafe { library::sel_keep(data.as_ptr(), data.len(), out.as_mut_ptr(), out.len()) }
}

pub(crate) fn write_kept(kept: &[u8], flat: &[u8], out: &mut [u8]) -> Answer {
    unsafe { library::sel_write_kept(kept.as_ptr(), kept.len(), flat.as_ptr(), flat.len(), out.as_mut_ptr(), out.len()) }
}

pub(crate) fn event_to_record(record_id: u16, time: u32, [generator1, generator2]: [u8; 2], message: &[u8], out: &mut [u8]) -> Answer {
    unsafe {
        library::sel_event_to_record(record_id, time, generator1, generator2, message.as_ptr(), message.len(), out.as_mut_ptr(), out.len())
    }
}

pub(crate) fn record_to_event(record: &[u8], out: &mut [u8]) -> Answer {
    unsafe { library::sel_record_to_event(record.as_ptr(), record.len(), out.as_mut_ptr(), out.len()) }
}

pub(crate) fn same_entry(a: &[u8], b: &[u8]) -> Same {
    unsafe { library::sel_same_entry(a.as_ptr(), a.len(), b.as_ptr(), b.len()) }
}

pub(crate) fn get_entry(data: &[u8], out: &mut [u8]) -> Answer {
    unsafe { library::sel_get_entry(data.as_ptr(), data.len(), out.as_mut_ptr(), out.len()) }
}

pub(crate) fn entry_of(version: u8, data: &[u8], out: &mut [u8]) -> Answer {
    unsafe { library::sel_entry_of(version, data.as_ptr(), data.len(), out.as_mut_ptr(), out.len()) }
}

pub(crate) fn get_entry_of(version: u8, data: &[u8], out: &mut [u8]) -> Answer {
    unsafe { library::sel_get_entry_of(version, data.as_ptr(), data.len(), out.as_mut_ptr(), out.len()) }
}

pub(crate) fn allocation(data: &[u8], out: &mut [u8]) -> Answer {
    unsafe { library::sel_allocation(data.as_ptr(), data.len(), out.as_mut_ptr(), out.len()) }
}

pub(crate) fn decode(kind: u8, data: &[u8], out: &mut [u8]) -> Answer {
    unsafe { library::sel_decode(kind, data.as_ptr(), data.len(), out.as_mut_ptr(), out.len()) }
}

pub(crate) fn length(kind: u8, len: usize) -> Answer {
    unsafe { library::sel_length(kind, len) }
}

pub(crate) fn ported(number: u32, value: usize) -> Answer {
    unsafe { library::sel_ported(number, value) }
}

pub(crate) fn bytes_that_count(kind: u8) -> usize {
    unsafe { library::sel_bytes_that_count(kind) }
}

pub(crate) fn texts(store: &mut [u8], starts: &mut [u16], lengths: &mut [u8]) -> Answer {
    unsafe { library::sel_texts(store.as_mut_ptr(), store.len(), starts.as_mut_ptr(), starts.len(), lengths.as_mut_ptr(), lengths.len()) }
}

pub(crate) fn event_text_from(
    (store, starts, lengths): (&[u8], &[u16], &[u8]),
    [event_type, sensor_type, offset]: [u8; 3],
    out: &mut [u8],
) -> Answer {
    unsafe {
        library::sel_event_text_from(
            store.as_ptr(),
            store.len(),
            starts.as_ptr(),
            starts.len(),
            lengths.as_ptr(),
            lengths.len(),
            event_type,
            sensor_type,
            offset,
            out.as_mut_ptr(),
            out.len(),
        )
    }
}

pub(crate) fn data_text([b1, b2, b3]: [u8; 3], out: &mut [u8]) -> Answer {
    unsafe { library::sel_data_text(b1, b2, b3, out.as_mut_ptr(), out.len()) }
}

pub(crate) fn typed_data(event_type: u8, [b1, b2, b3]: [u8; 3]) -> TypedData {
    unsafe { library::sel_typed_data(event_type, b1, b2, b3) }
}

pub(crate) fn typed_text(event_type: u8, [b1, b2, b3]: [u8; 3], out: &mut [u8]) -> Answer {
    unsafe { library::sel_typed_text(event_type, b1, b2, b3, out.as_mut_ptr(), out.len()) }
}

pub(crate) fn time_text(time: u32, out: &mut [u8]) -> Answer {
    unsafe { library::sel_time_text(time, out.as_mut_ptr(), out.len()) }
}

pub(crate) fn log_time_text(time: u32, out: &mut [u8]) -> Answer {
    unsafe { library::sel_log_time_text(time, out.as_mut_ptr(), out.len()) }
}

pub(crate) fn request(command: u8, reservation: u16, argument: u16, out: &mut [u8]) -> Answer {
    unsafe { library::sel_request(command, reservation, argument, out.as_mut_ptr(), out.len()) }
}

pub(crate) fn reads(m: u8, out: &mut [u8]) -> Answer {
    unsafe { library::sel_reads(m, out.as_mut_ptr(), out.len()) }
}

pub(crate) fn request_part(reservation_id: u16, record_id: u16, offset: u8, bytes_to_read: u8, out: &mut [u8]) -> Answer {
    unsafe { library::sel_request_part(reservation_id, record_id, offset, bytes_to_read, out.as_mut_ptr(), out.len()) }
}

pub(crate) fn join(m: u8, got: u8, next: u16, answer: &[u8], record: &mut [u8]) -> Joined {
    unsafe { library::sel_join(m, got, next, answer.as_ptr(), answer.len(), record.as_mut_ptr(), record.len()) }
}

pub(crate) fn channel(number: u8) -> Answer {
    unsafe { library::sel_channel(number) }
}

pub(crate) fn unit(number: u8) -> Answer {
    unsafe { library::sel_unit(number) }
}

pub(crate) fn slots_length(len: usize) -> u32 {
    unsafe { library::sel_slots_length(len) }
}

pub(crate) fn find(slots: &[u8], id: u16) -> Found {
    unsafe { library::sel_find(slots.as_ptr(), slots.len(), id) }
}

pub(crate) fn walk(slots: &[u8], budget: usize, list: &mut [u16]) -> Walk {
    unsafe { library::sel_walk(slots.as_ptr(), slots.len(), budget, list.as_mut_ptr(), list.len()) }
}

pub(crate) fn index_make(slots: &[u8], index: &mut [u16], scratch: &mut [u16]) -> Answer {
    unsafe { library::sel_index_make(slots.as_ptr(), slots.len(), index.as_mut_ptr(), index.len(), scratch.as_mut_ptr(), scratch.len()) }
}

pub(crate) fn index_add(slots: &[u8], index: &mut [u16]) -> Answer {
    unsafe { library::sel_index_add(slots.as_ptr(), slots.len(), index.as_mut_ptr(), index.len()) }
}

pub(crate) fn index_check(slots: &[u8], index: &[u16]) -> u32 {
    unsafe { library::sel_index_check(slots.as_ptr(), slots.len(), index.as_ptr(), index.len()) }
}

pub(crate) fn find_indexed(slots: &[u8], index: &[u16], id: u16) -> Found {
    unsafe { library::sel_find_indexed(slots.as_ptr(), slots.len(), index.as_ptr(), index.len(), id) }
}

pub(crate) fn walk_indexed(slots: &[u8], index: &[u16], budget: usize, list: &mut [u16]) -> Walk {
    unsafe { library::sel_walk_indexed(slots.as_ptr(), slots.len(), index.as_ptr(), index.len(), budget, list.as_mut_ptr(), list.len()) }
}
