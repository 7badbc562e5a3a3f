//! Get SEL Info. After src/storage/sel/get_info.rs of ipmi-rs-core 0.6.0, changed: the library reads the answer.

use crate::connection::NotEnoughData;
use crate::flat::Flat;
use crate::storage::Timestamp;
use crate::Request;

/// Asks what the log is and holds.
pub struct GetInfo;

impl GetInfo {
    pub fn request(&self) -> Request {
        Request::new(0x40, None, 0)
    }

    pub fn parse_success_response(data: &[u8]) -> Result<Info, NotEnoughData> {
        Info::from_data(data).ok_or(NotEnoughData)
    }
}

/// A command that a log may support.
#[derive(Clone, Copy, Debug, PartialEq)]
pub enum Command {
    Delete,
    PartialAddEntry,
    Reserve,
    GetAllocInfo,
}

/// The commands by the bits of the mask, in the order in which they are listed.
const COMMANDS: [(u8, Command); 4] =
    [(0x08, Command::Delete), (0x04, Command::PartialAddEntry), (0x02, Command::Reserve), (0x01, Command::GetAllocInfo)];

#[derive(Debug, Clone)]
pub struct Info {
    pub version_maj: u8,
    pub version_min: u8,
    pub entries: u16,
    pub bytes_free: u16,
    pub last_add_time: Timestamp,
    pub last_del_time: Timestamp,
    pub overflow: bool,
    pub supported_cmds: Vec<Command>,
}

impl Info {
    /// `None` for any length but 14.
    pub fn from_data(data: &[u8]) -> Option<Self> {
        let mut flat = Flat::decode(b'i', data).ok()?;
        Some(Self {
            version_maj: flat.byte(),
            version_min: flat.byte(),
            entries: flat.u16(),
            bytes_free: flat.u16(),
            last_add_time: Timestamp(flat.u32()),
            last_del_time: Timestamp(flat.u32()),
            overflow: flat.yes(),
            supported_cmds: commands(flat.byte()),
        })
    }
}

fn commands(mask: u8) -> Vec<Command> {
    let mut listed = Vec::with_capacity(COMMANDS.len());
    listed.extend(COMMANDS.into_iter().filter(|(bit, _)| mask & bit != 0).map(|(_, command)| command));
    listed
}
