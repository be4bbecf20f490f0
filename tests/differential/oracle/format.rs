//! Frames and answers, byte by byte: see FORMAT.md.

use crate::protocol::nvxs::Identity;
use crate::refusal::{Refusal, of_record};
use crate::view::ParserView;

/// Bytes of a block of calls.
pub const BLOCK: usize = 131_072;
/// The most bytes that the answers of a block take.
pub const ANSWERS: usize = 262_144;
/// The most bytes that one answer takes.
pub const ROOM: usize = 66_048;
/// Bytes of a frame's head.
pub const FRAME: usize = 24;
/// Bytes of an answer's head.
pub const HEAD: usize = 128;
/// Bytes of an area of the memory.
pub const AREA: usize = 65_600;
/// The stage that a push asks for.
pub const STAGE: u64 = 65_536;

/// What a call does; the numbers of FORMAT.md.
pub mod op {
    pub const FRESH: u8 = 1;
    pub const GUEST_ATTACH: u8 = 10;
    pub const GUEST_RECEIVE: u8 = 11;
    pub const ACKNOWLEDGE: u8 = 12;
    pub const GUEST_SEND: u8 = 13;
    pub const CREDIT: u8 = 14;
    pub const GUEST_DISCONNECT: u8 = 15;
    pub const GUEST_ASKS: u8 = 16;
    pub const HOST_ATTACH: u8 = 20;
    pub const HOST_RECEIVE: u8 = 21;
    pub const HOST_SEND: u8 = 23;
    pub const HOST_DISCONNECT: u8 = 25;
    pub const HOST_ASKS: u8 = 26;
    pub const PUSH: u8 = 30;
    pub const NEW_PARSER: u8 = 31;
    pub const PARSER_ASKS: u8 = 32;
    pub const ENCODE_RECORD: u8 = 40;
    pub const ENCODE_OUTER: u8 = 41;
    pub const DECODE_OUTER: u8 = 42;
    pub const ENCODE_ACK: u8 = 43;
    pub const DECODE_ACK: u8 = 44;
    pub const ENCODE_CREDIT: u8 = 45;
    pub const DECODE_CREDIT: u8 = 46;
    pub const TYPE_ASKS: u8 = 47;
    pub const ERROR_ASKS: u8 = 48;
    pub const SET_GUEST: u8 = 50;
    pub const SET_HOST: u8 = 51;
    pub const SHOW: u8 = 60;
}

/// The name of an operation, for reports.
pub fn name(number: u8) -> &'static str {
    match number {
        op::FRESH => "fresh",
        op::GUEST_ATTACH => "guest attach",
        op::GUEST_RECEIVE => "guest receive",
        op::ACKNOWLEDGE => "guest acknowledge",
        op::GUEST_SEND => "guest send",
        op::CREDIT => "guest credit",
        op::GUEST_DISCONNECT => "guest disconnect",
        op::GUEST_ASKS => "guest asks",
        op::HOST_ATTACH => "host attach",
        op::HOST_RECEIVE => "host receive",
        op::HOST_SEND => "host send",
        op::HOST_DISCONNECT => "host disconnect",
        op::HOST_ASKS => "host asks",
        op::PUSH => "push",
        op::NEW_PARSER => "new parser",
        op::PARSER_ASKS => "parser asks",
        op::ENCODE_RECORD => "encode_record",
        op::ENCODE_OUTER => "encode_outer",
        op::DECODE_OUTER => "decode_outer_header",
        op::ENCODE_ACK => "encode_ack_payload",
        op::DECODE_ACK => "decode_ack_payload",
        op::ENCODE_CREDIT => "encode_credit_payload",
        op::DECODE_CREDIT => "decode_credit_payload",
        op::TYPE_ASKS => "record type asks",
        op::ERROR_ASKS => "error code asks",
        op::SET_GUEST => "set guest",
        op::SET_HOST => "set host",
        op::SHOW => "show memory",
        _ => "unknown",
    }
}

/// One call.
#[derive(Clone, Copy)]
pub struct Frame<'a> {
    pub op: u8,
    pub a: u64,
    pub b: u64,
    pub data: &'a [u8],
}

impl Frame<'_> {
    /// Appends the frame's bytes.
    pub fn put(&self, out: &mut Vec<u8>) {
        out.extend([self.op, 0, 0, 0]);
        out.extend((self.data.len() as u32).to_le_bytes());
        out.extend(self.a.to_le_bytes());
        out.extend(self.b.to_le_bytes());
        out.extend(self.data);
    }

    /// The low half of `a`: a window, an amount, a value.
    pub fn value(&self) -> u32 {
        self.a as u32
    }

    /// The output's length, the high half of `a`.
    pub fn output_len(&self) -> u64 {
        (self.a >> 32).min(AREA as u64)
    }

    /// Bytes of a frame and the place after it.
    pub fn size(&self) -> usize {
        FRAME + self.data.len()
    }
}

/// The frame at a place of a block, or `None` at the end of its frames.
pub fn frame_at(block: &[u8], at: usize) -> Option<Frame<'_>> {
    let head = block.get(at..at + FRAME)?;
    let n = u32::from_le_bytes(head[4..8].try_into().unwrap()) as usize;
    let data = block.get(at + FRAME..at + FRAME + n)?;
    (head[0] != 0).then(|| Frame { op: head[0], a: u64_at(head, 8), b: u64_at(head, 16), data })
}

/// A little-endian number of eight bytes.
pub fn u64_at(bytes: &[u8], at: usize) -> u64 {
    u64::from_le_bytes(bytes[at..at + 8].try_into().unwrap())
}

/// What a call answers.
#[derive(Clone, Default)]
pub struct Answer {
    pub refusal: Refusal,
    pub event: u8,
    pub place: u8,
    pub record_type: u8,
    pub count: u64,
    pub next: u64,
    pub identity: Option<Identity>,
    pub window: Option<u32>,
    pub credit: Option<u32>,
    pub error: Option<u32>,
    pub payload: Vec<u8>,
    pub written: Vec<u8>,
}

impl Answer {
    /// A refusal and nothing else.
    pub fn refused(refusal: Refusal) -> Self {
        Self { refusal, ..Self::default() }
    }

    /// Appends the answer's bytes, with the state after it.
    pub fn put(&self, op: u8, state: &[u8], out: &mut Vec<u8>) {
        let total = HEAD + self.payload.len() + self.written.len() + state.len();
        out.extend((total as u32).to_le_bytes());
        out.extend([op, self.event, self.place, self.refusal.number]);
        put_figures(&self.refusal, out);
        out.extend(self.count.to_le_bytes());
        out.extend(self.next.to_le_bytes());
        put_identity(self.identity, out);
        out.extend((self.payload.len() as u32).to_le_bytes());
        out.extend((self.written.len() as u32).to_le_bytes());
        let asks = [self.window, self.credit, self.error];
        out.extend(asks.map(|ask| ask.is_some() as u8));
        out.push(self.record_type);
        for ask in asks {
            out.extend(ask.unwrap_or(0).to_le_bytes());
        }
        out.extend(&self.payload);
        out.extend(&self.written);
        out.extend(state);
    }
}

/// A refusal's three figures and two fields of 16 bytes.
fn put_figures(refusal: &Refusal, out: &mut Vec<u8>) {
    for figure in [refusal.a, refusal.b, refusal.c] {
        out.extend(figure.to_le_bytes());
    }
    out.extend(refusal.expected);
    out.extend(refusal.actual);
}

/// 24 bytes: instance and epoch, zeros where there is none.
pub fn put_identity(identity: Option<Identity>, out: &mut Vec<u8>) {
    out.extend(identity.map_or([0; 16], |id| id.instance_id));
    out.extend(identity.map_or(0, |id| id.epoch).to_le_bytes());
}

/// 120 bytes: the header's bytes, also those of an earlier record; counts; the latched error.
pub fn put_parser(parser: &ParserView, out: &mut Vec<u8>) {
    out.extend(parser.header);
    out.extend((parser.header_len as u32).to_le_bytes());
    out.extend((parser.payload_len as u64).to_le_bytes());
    let error = parser.error.as_ref().map_or(Refusal::default(), of_record);
    out.extend(u64::from(error.number).to_le_bytes());
    put_figures(&error, out);
}

/// The fields of an answer's head, for reports: name, place, bytes.
pub const FIELDS: [(&str, usize, usize); 22] = [
    ("length of the answer", 0, 4),
    ("operation", 4, 1),
    ("event", 5, 1),
    ("place", 6, 1),
    ("refusal", 7, 1),
    ("a", 8, 8),
    ("b", 16, 8),
    ("c", 24, 8),
    ("expected", 32, 16),
    ("actual", 48, 16),
    ("count", 64, 8),
    ("next", 72, 8),
    ("instance", 80, 16),
    ("epoch", 96, 8),
    ("payload length", 104, 4),
    ("written length", 108, 4),
    ("window mark", 112, 1),
    ("credit mark", 113, 1),
    ("error mark", 114, 1),
    ("record type", 115, 1),
    ("window and credit", 116, 8),
    ("error code", 124, 4),
];
