//! What a parser or a session holds, as plain public data.

use crate::protocol::nvxs::{Identity, RecordError};

/// A parser. The held header's fields are those of the 44 bytes.
pub struct ParserView {
    pub header: [u8; 44],
    pub header_len: usize,
    pub held: bool,
    pub payload_len: usize,
    pub error: Option<RecordError>,
}

/// A guest. States count from 0 in the order of the reference.
pub struct GuestView {
    pub state: u8,
    pub parser: ParserView,
    pub identity: Option<Identity>,
    pub receive_sequence: u64,
    pub send_sequence: u64,
    pub window: u32,
    pub outstanding: u32,
}

/// A host.
pub struct HostView {
    pub state: u8,
    pub parser: ParserView,
    pub identity: Option<Identity>,
    pub receive_sequence: u64,
    pub send_sequence: u64,
}
