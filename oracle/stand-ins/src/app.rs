//! Stand-in: the original's request for an entry, its file as it stands, and
//! beside it what sets the two fields that no public function sets.

use crate::storage::sel::{Entry, ParseEntryError, RecordId};

pub mod get_entry {
    include!("storage/sel/get_entry.rs");

    impl GetEntry {
        pub fn partial(self, offset: u8, bytes_to_read: Option<NonMaxU8>) -> Self {
            Self { offset, bytes_to_read, ..self }
        }
    }
}
