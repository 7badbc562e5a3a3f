//! Stand-in: the names alone.

pub struct Request;
pub struct RequestTargetAddress;
