//! Captures: of equal records for measurements, and random, damaged and cut ones for comparisons.

use crate::rng::Rng;
use std::io::Write;

const RESET: u8 = 3;
const ACK: u8 = 4;
const DATA: u8 = 5;
const CREDIT: u8 = 9;

/// A record's bytes, unchecked.
fn record(kind: u8, instance: [u8; 16], epoch: u64, sequence: u64, payload: &[u8]) -> Vec<u8> {
    let mut bytes = b"NVXS".to_vec();
    bytes.extend_from_slice(&[1, 0, kind, 0]);
    bytes.extend_from_slice(&instance);
    bytes.extend_from_slice(&epoch.to_le_bytes());
    bytes.extend_from_slice(&sequence.to_le_bytes());
    bytes.extend_from_slice(&(payload.len() as u32).to_le_bytes());
    bytes.extend_from_slice(payload);
    bytes
}

/// Writes a RESET, then DATA records of one payload length, each followed by no credit, up to about
/// `bytes` bytes in all; a RESET after every 1,000 of them.
pub fn write(payload: usize, bytes: usize) -> Result<(), String> {
    let mut out = std::io::BufWriter::with_capacity(1 << 20, std::io::stdout().lock());
    let data: Vec<u8> = (0..payload).map(|i| (i * 31) as u8).collect();
    let (mut written, mut sequence, mut epoch) = (0, 0, 1);
    while written < bytes {
        let next = if sequence % 1000 == 0 {
            epoch += 1;
            record(RESET, [0x11; 16], epoch, sequence, &[])
        } else {
            record(DATA, [0x11; 16], epoch, sequence, &data)
        };
        out.write_all(&next).map_err(|error| error.to_string())?;
        written += next.len();
        sequence += 1;
    }
    out.flush().map_err(|error| error.to_string())
}

/// A number with few or many digits.
fn figure(rng: &mut Rng) -> u64 {
    rng.next() >> rng.below(64)
}

fn data(rng: &mut Rng) -> Vec<u8> {
    let size = match rng.below(40) {
        0 => 65536,
        1 => 1 + rng.below(65536),
        _ => 1 + rng.below(300),
    };
    rng.bytes(size)
}

/// The four bytes of an ACK, a CREDIT or an ERROR: mostly within their limits.
fn value(rng: &mut Rng, kind: u8) -> Vec<u8> {
    let edge = rng.one_in(12);
    let value: u32 = match kind {
        ACK if edge => rng.pick(&[0, 65535, 65536, 4_194_314, 4_194_315, u32::MAX]),
        ACK => 65536 + rng.below(4_128_779) as u32,
        CREDIT if edge => rng.pick(&[0, 1, 4_194_314, 4_194_315]),
        CREDIT => 1 + rng.below(400) as u32,
        _ if edge => rng.pick(&[0, 2]),
        _ => 1,
    };
    value.to_le_bytes().to_vec()
}

fn random_record(rng: &mut Rng) -> Vec<u8> {
    let kind = rng.pick(&[1, 2, RESET, RESET, ACK, DATA, DATA, DATA, DATA, DATA, 6, 7, 8, CREDIT, CREDIT, CREDIT]);
    let payload = match kind {
        2 => rng.bytes(32),
        DATA => data(rng),
        ACK | 8 | CREDIT => value(rng, kind),
        _ => Vec::new(),
    };
    if kind < 3 && !rng.one_in(8) {
        return record(kind, [0; 16], 0, 0, &payload);
    }
    record(kind, [rng.below(3) as u8; 16], figure(rng), figure(rng), &payload)
}

/// One byte changed, in a header mostly.
fn damage(rng: &mut Rng, bytes: &mut [u8]) {
    if bytes.is_empty() {
        return;
    }
    let at = if rng.one_in(2) { rng.below(bytes.len().min(44)) } else { rng.below(bytes.len()) };
    let bit = 1 << rng.below(8);
    bytes[at] = if rng.one_in(4) { rng.below(256) as u8 } else { bytes[at] ^ bit };
}

/// A capture: whole records, then perhaps a damaged record, bytes of anything, or a cut.
pub fn random(rng: &mut Rng) -> Vec<u8> {
    let mut bytes = Vec::new();
    for _ in 0..rng.below(14) {
        bytes.extend(random_record(rng));
    }
    match rng.below(4) {
        0 => {
            let mut last = random_record(rng);
            damage(rng, &mut last);
            bytes.extend(last);
            bytes.extend(random_record(rng));
        }
        1 => bytes.truncate(rng.below(bytes.len() + 1)),
        2 if rng.one_in(4) => {
            let size = rng.below(200);
            bytes.extend(rng.bytes(size));
        }
        _ => {}
    }
    if rng.one_in(6) {
        damage(rng, &mut bytes);
    }
    bytes
}
