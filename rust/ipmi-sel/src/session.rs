//! The commands and numbers of this crate where ipmi-rs-core's own are wanted, so that its sessions take them.

use std::convert::Infallible;
use std::num::NonZeroU16;

use ipmi_rs_core::connection::{self, IpmiCommand, Message, NetFn, NotEnoughData};

use crate::connection::{Channel, LogicalUnit};
use crate::parts::GetEntryPart;
use crate::storage::sel::{
    ClearSel, ErasureProgress, GetSelEntry, GetSelInfo, ParseEntryError, ReserveSel, SelAllocInfo, SelEntryInfo, SelGetAllocInfo, SelInfo,
};
use crate::Request;

fn message(request: Request) -> Message {
    Message::new_request(NetFn::Storage, request.command(), request.payload().to_vec())
}

macro_rules! commands {
    ($($command:ident -> $output:ident, $error:ident;)*) => {$(
        impl From<$command> for Message {
            fn from(command: $command) -> Self {
                message(command.request())
            }
        }

        impl IpmiCommand for $command {
            type Output = $output;
            type Error = $error;

            fn parse_success_response(data: &[u8]) -> Result<Self::Output, Self::Error> {
                // The command's own function, which goes before the trait's.
                $command::parse_success_response(data)
            }
        }
    )*};
}

commands! {
    GetSelInfo -> SelInfo, NotEnoughData;
    SelGetAllocInfo -> SelAllocInfo, NotEnoughData;
    ReserveSel -> NonZeroU16, NotEnoughData;
    GetSelEntry -> SelEntryInfo, ParseEntryError;
    ClearSel -> ErasureProgress, NotEnoughData;
}

impl From<GetEntryPart> for Message {
    fn from(command: GetEntryPart) -> Self {
        message(command.request())
    }
}

/// The answer as it came: what it is worth, `Joining::take` tells, which knows the read that it is to.
impl IpmiCommand for GetEntryPart {
    type Output = Vec<u8>;
    type Error = Infallible;

    fn parse_success_response(data: &[u8]) -> Result<Self::Output, Self::Error> {
        Ok(data.to_vec())
    }
}

impl From<Channel> for connection::Channel {
    fn from(channel: Channel) -> Self {
        use connection::ChannelNumber;
        match channel {
            Channel::Primary => Self::Primary,
            // Every number that the library accepts is one here too; the other cases have a number of their own.
            Channel::Numbered(number) => ChannelNumber::new(number.value()).map_or(Self::Primary, Self::Numbered),
            Channel::System => Self::System,
            Channel::Current => Self::Current,
        }
    }
}

impl From<LogicalUnit> for connection::LogicalUnit {
    fn from(unit: LogicalUnit) -> Self {
        Self::from_low_bits(unit.value())
    }
}
