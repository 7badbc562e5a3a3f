//! The one driver of both sides: the original Rust and the C functions of the library are called on the same inputs, in the same loop.
//!
//!     driver rows                 the rows, a line each: name, number of inputs, slots tested a call, sides
//!     driver indexed              the rows of calls with an index, and of those that do the same without it, in the same way
//!     driver check                asks both sides every input once, and compares the answers
//!     driver log                  the 3,000 records of a whole log, in hexadecimal, a line each
//!     driver SIDE ROUNDS ROW      calls a side of a row on each of its inputs, so many times over; SIDE `none` is the loop alone
//!
//! No buffer is cleared between two calls, on no side.

mod inputs;
#[allow(dead_code)] // the oracle asks more kinds
mod kinds;
mod ours;
mod original;

use std::fmt;
use std::hint::black_box;
use std::rc::Rc;

/// What is lent to every call. It stays as the call before has left it. The order is fixed, since the caller's part of a call depends on it.
#[repr(C)]
pub struct Room {
    pub starts: [u16; 640],
    pub out: [u8; 128],
    pub used: usize,
    pub store: [u8; 6435],
    pub lengths: [u8; 640],
    pub list: [u16; 3000],
    /// A capture, its index, and the index of all slots but the last one.
    pub slots: Vec<u8>,
    pub index: Vec<u16>,
    pub before: Vec<u16>,
    /// Where an index is made or extended, and what making it needs beside.
    pub made: [u16; 3000],
    pub scratch: [u16; 3000],
}

impl Room {
    /// Lends a row's capture with its index. What the row's calls are to write, no other row has left there.
    fn lend(&mut self, capture: &[u8]) {
        self.slots = capture.to_vec();
        self.index = inputs::index(capture);
        self.before = inputs::index(&capture[..capture.len().saturating_sub(20)]);
        for places in [&mut self.list, &mut self.made, &mut self.scratch] {
            places.fill(0xFFFF);
        }
    }
}

/// The Rust writes its texts into the same fixed output.
impl fmt::Write for Room {
    fn write_str(&mut self, text: &str) -> fmt::Result {
        let end = self.used + text.len();
        self.out.get_mut(self.used..end).ok_or(fmt::Error)?.copy_from_slice(text.as_bytes());
        self.used = end;
        Ok(())
    }
}

type Call = fn(&[u8], &mut Room);
type Demanded = Box<dyn Fn(&[u8], &Room) -> String>;

pub struct Row {
    name: String,
    inputs: Vec<Vec<u8>>,
    /// Slots that a call tests, or goes over; 0 where it is short, and counted many times.
    tested: usize,
    /// What is lent to the calls, where it is not their input.
    capture: Rc<Vec<u8>>,
    rust: Option<Call>,
    ours: Call,
    /// What a call of ours does for the driver alone: it is taken off with the loop.
    alone: Call,
    /// What the Rust answers and what we answer, in the form of `replay`.
    answers: (Demanded, fn(&[u8], &mut Room) -> String),
}

fn nothing(_: &[u8], _: &mut Room) {}

#[inline(never)]
fn each(rounds: usize, inputs: &[Vec<u8>], call: Call, room: &mut Room) {
    for _ in 0..rounds {
        for input in inputs {
            call(input, room);
        }
    }
}

fn list(rows: impl Iterator<Item = Row>) {
    for row in rows {
        let sides = if row.rust.is_some() { "rust ours" } else { "ours" };
        println!("{}\t{}\t{}\t{sides}", row.name, row.inputs.len(), row.tested);
    }
}

fn check(rows: impl Iterator<Item = Row>, room: &mut Room) {
    let mut compared = 0;
    for row in rows {
        let (rust, ours) = &row.answers;
        room.lend(&row.capture);
        for input in &row.inputs {
            let (rust, ours) = (rust(input, room), ours(input, room));
            assert_eq!(rust, ours, "{}: {input:02X?}", row.name);
            compared += 1;
        }
    }
    println!("{compared} answers compared, no difference");
}

fn main() {
    let mut room = Box::new(Room {
        starts: [0; 640],
        out: [0; 128],
        used: 0,
        store: [0; 6435],
        lengths: [0; 640],
        list: [0; 3000],
        slots: Vec::new(),
        index: Vec::new(),
        before: Vec::new(),
        made: [0; 3000],
        scratch: [0; 3000],
    });
    ours::fill_store(&mut room);
    let mut all = inputs::rows().chain(inputs::indexed());
    let words: Vec<String> = std::env::args().skip(1).collect();
    match words.iter().map(String::as_str).collect::<Vec<_>>()[..] {
        ["rows"] => list(inputs::rows()),
        ["indexed"] => list(inputs::indexed()),
        ["log"] => {
            for record in inputs::log() {
                println!("{}", record.iter().map(|byte| format!("{byte:02X}")).collect::<String>());
            }
        }
        ["check"] => check(all, &mut room),
        [side, rounds, name] => {
            let row = all.find(|row| row.name == name).expect("a row");
            let call = match side {
                "none" => row.alone,
                "rust" => row.rust.expect("a row of the Rust"),
                "ours" => row.ours,
                _ => panic!("no such side"),
            };
            room.lend(&row.capture);
            each(rounds.parse().unwrap(), &row.inputs, black_box(call), &mut room);
        }
        _ => panic!("driver rows | driver indexed | driver check | driver log | driver SIDE ROUNDS ROW"),
    }
}
