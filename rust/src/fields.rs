//! The fields of file and record headers, laid out so that both readers hand over the same types.

/// A release and version. The derived order is document 01's: by release, then extension, then
/// version.
#[repr(C)]
#[derive(Clone, Copy, Debug, Default, PartialEq, Eq, PartialOrd, Ord)]
pub struct Release {
    pub release: u8,
    /// 0 when absent, which is whenever `release` is below 7.
    pub extension: u8,
    pub version: u8,
}

/// A timestamp's fields, each wide enough to hold more than its bits in the file.
#[repr(C)]
#[derive(Clone, Copy, Debug, Default, PartialEq, Eq)]
pub struct Timestamp {
    pub month: u32,
    pub day: u32,
    pub hour: u32,
    pub minute: u32,
    /// 1 is plus.
    pub sign: u32,
    pub dev_hour: u32,
    pub dev_minute: u32,
}

/// The fields of a file header that are not worked out from the rest of the file.
#[repr(C)]
#[derive(Clone, Copy, Debug, Default, PartialEq, Eq)]
pub struct Header {
    pub high: Release,
    pub low: Release,
    pub opened: Timestamp,
    /// When the last record was appended.
    pub appended: Timestamp,
    /// The file sequence number.
    pub sequence: u32,
    /// The closure reason.
    pub reason: u8,
    /// The node address.
    pub address: [u8; 20],
    /// The lost indicator.
    pub lost: u8,
    /// What it states of its private extension: `NONE`, `EMPTY` or `OCTETS`.
    pub statement: u8,
}

/// There is no private extension.
pub const NONE: u8 = 0;
/// There is one of length 0.
pub const EMPTY: u8 = 1;
/// There is one with octets.
pub const OCTETS: u8 = 2;

/// The fields of a record header but for the body length.
#[repr(C)]
#[derive(Clone, Copy, Debug, Default, PartialEq, Eq)]
pub struct RecordHeader {
    pub release: Release,
    /// The data record format.
    pub format: u8,
    /// The TS number.
    pub ts: u8,
}
