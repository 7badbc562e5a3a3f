//! Stand-in: the names alone.

pub struct AllocInfo;
pub struct GetAllocInfo;
