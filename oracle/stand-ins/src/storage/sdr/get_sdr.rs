//! Stand-in: the names alone.

pub struct GetDeviceSdr;
pub struct RecordInfo;
