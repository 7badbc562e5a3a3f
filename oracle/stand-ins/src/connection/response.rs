//! Stand-in: the names alone.

pub struct Response;
