//! Stand-in: the names alone.

pub struct FreeSpace;
pub struct GetRepositoryInfo;
pub struct Operation;
pub struct RepositoryInfo;
