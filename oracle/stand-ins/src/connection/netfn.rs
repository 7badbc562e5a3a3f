//! Stand-in: the one function code that the SEL commands use. No question
//! reads it back.

pub enum NetFn {
    Storage,
}

impl NetFn {
    pub fn request_value(&self) -> u8 {
        0x0A
    }

    pub fn response_value(&self) -> u8 {
        0x0B
    }
}

impl From<u8> for NetFn {
    fn from(_: u8) -> Self {
        Self::Storage
    }
}
