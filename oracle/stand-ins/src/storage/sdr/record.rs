//! Stand-in: the names alone.

pub struct ParseError;
pub struct Record;
