//! The System Event Log part of ipmi-rs-core's interface, over the library `libabi.a`, in which every function is proved to meet its
//! contract. The library reads all bytes, and writes all texts, requests and records; here its flat answers become
//! types.
//!
//! The names and signatures are those of ipmi-rs-core 0.6.0; [`capture`], [`events`], [`parts`], [`Refusal`], [`Request`],
//! [`storage::Timestamp::log_text`], [`storage::sdr::TypedData`], [`connection::Version`] with the two functions that take it, and
//! [`storage::sel::Entry::to_bytes`] with [`storage::sel::Kept`], [`storage::sel::Entry::remade`] and [`NoSuchRecord`]
//! are added. README.md says what differs.

pub mod capture;
pub mod connection;
pub mod events;
mod ffi;
mod flat;
pub mod nonmax;
pub mod parts;
mod refusal;
mod request;
#[cfg(feature = "ipmi-rs-core")]
mod session;
pub mod storage;
mod text;

pub use refusal::{NoSuchRecord, Refusal};
pub use request::Request;

// What the port does not have, so that one `use` line is enough.
#[cfg(feature = "ipmi-rs-core")]
pub use ipmi_rs_core::{app, sensor_event, transport};

#[cfg(doctest)]
#[doc = include_str!("../README.md")]
struct Readme;
