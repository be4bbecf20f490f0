//! The same loops over the Rust reference.

use crate::protocol::CAPABILITY_LEN;
use crate::protocol::nvxs::{
    GuestEvent, GuestSession, HostEvent, HostSession, RecordParser, RecordType, encode_record,
};

pub const INSTANCE: [u8; 16] = [17; 16];
pub const EPOCH: u64 = 7;
const WINDOW: u32 = 4_194_304;

/// Sums over numbers: plain, and of the plain ones, so that the order counts.
#[derive(Default)]
pub struct Sums {
    plain: u64,
    pub weighted: u64,
}

impl Sums {
    fn add(&mut self, value: u64) {
        self.plain = self.plain.wrapping_add(value);
        self.weighted = self.weighted.wrapping_add(self.plain);
    }

    /// Adds a payload: its length and first byte, or with `whole` its length and every byte.
    pub fn add_payload(&mut self, bytes: &[u8], whole: bool) {
        self.add(bytes.len() as u64);
        if whole {
            bytes.iter().for_each(|&byte| self.add(byte.into()));
        } else if let Some(&byte) = bytes.first() {
            self.add(byte.into());
        }
    }
}

fn opening(record_type: RecordType) -> Vec<u8> {
    let mut bytes = Vec::with_capacity(44);
    encode_record(record_type, &INSTANCE, EPOCH, 0, &[], &mut bytes).expect("the record is sound");
    bytes
}

/// A guest that has attached, got a RESET of sequence 0 and acknowledged it.
fn active_guest() -> GuestSession {
    let mut output = Vec::with_capacity(48);
    let mut guest = GuestSession::new();
    guest.attach(&mut output).expect("it attaches");
    guest.receive(&opening(RecordType::Reset)).expect("it takes the RESET");
    output.clear();
    guest.acknowledge(WINDOW, &mut output).expect("it acknowledges");
    guest
}

/// A host that has attached, got a READY of sequence 0 and sent a byte, so that its next record
/// has the sequence that the guest expects.
fn attached_host() -> HostSession {
    let mut output = Vec::with_capacity(76);
    let mut host = HostSession::new();
    host.attach(&[7; CAPABILITY_LEN], &mut output).expect("it attaches");
    host.receive(&opening(RecordType::Ready)).expect("it takes the READY");
    output.clear();
    host.send(b"0", &mut output).expect("it sends");
    host
}

#[inline(never)]
#[unsafe(no_mangle)]
pub extern "Rust" fn rust_receive(stream: &[u8], piece: usize, whole: bool) -> u64 {
    let mut guest = active_guest();
    let mut sums = Sums::default();
    let (mut at, mut end) = (0, 0);
    while at < stream.len() {
        if end <= at {
            end = stream.len().min(end.saturating_add(piece));
        }
        let Ok((consumed, event)) = guest.receive(&stream[at..end]) else {
            return 0;
        };
        if let Some(GuestEvent::Data(payload)) = event {
            sums.add_payload(&payload, whole);
        }
        at += consumed;
    }
    sums.weighted
}

#[inline(never)]
#[unsafe(no_mangle)]
pub extern "Rust" fn rust_send(data: &[u8], size: usize, output: &mut Vec<u8>) -> usize {
    let mut guest = active_guest();
    output.clear();
    let mut at = 0;
    while at < data.len() {
        let end = data.len().min(at + size);
        let Ok(count) = guest.send(&data[at..end], output) else {
            return 0;
        };
        at += count;
    }
    output.len()
}

/// Both ends and the relay between them.
struct Link {
    host: HostSession,
    guest: GuestSession,
    parser: RecordParser,
}

impl Link {
    /// One message there and back; `None` where an end refuses.
    fn turn(&mut self, sequence: u64, message: &[u8], wire: &mut Vec<u8>, reply: &mut Vec<u8>) -> Option<Vec<u8>> {
        wire.clear();
        self.host.send(message, wire).ok()?;
        let (_, Some(GuestEvent::Data(payload))) = self.guest.receive(wire).ok()? else {
            return None;
        };
        reply.clear();
        self.guest.send(&payload, reply).ok()?;
        self.guest.credit(payload.len() as u32, reply).ok()?;
        let (consumed, record) = self.parser.push(reply).ok()?;
        let record = record?;
        wire.clear();
        encode_record(
            RecordType::Data, &record.instance_id(), record.epoch(), sequence, record.payload(), wire,
        )
        .ok()?;
        self.parser.push(&reply[consumed..]).ok()?;
        let (_, Some(HostEvent::Data(echo))) = self.host.receive(wire).ok()? else {
            return None;
        };
        Some(echo)
    }
}

#[inline(never)]
#[unsafe(no_mangle)]
pub extern "Rust" fn rust_echo(message: &[u8], times: u32, whole: bool, wire: &mut Vec<u8>, reply: &mut Vec<u8>) -> u64 {
    let mut link = Link { host: attached_host(), guest: active_guest(), parser: RecordParser::new() };
    let mut sums = Sums::default();
    for sequence in 1..=times.into() {
        let Some(echo) = link.turn(sequence, message, wire, reply) else {
            return 0;
        };
        sums.add_payload(&echo, whole);
    }
    sums.weighted
}
