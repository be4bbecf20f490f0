//! Raw records, also wrong ones.

use super::NEAR;
use super::rng::Rng;
use crate::protocol::nvxs::Identity;

/// All-zero instance and epoch, as of types 1 and 2.
pub const ZERO: Identity = Identity { instance_id: [0; 16], epoch: 0 };
/// An identity that aimed scenes use: M1's.
pub const SEVEN: Identity = Identity { instance_id: [0x11; 16], epoch: 7 };

/// The bytes of a record; any field may be wrong.
pub fn raw(code: u8, id: Identity, sequence: u64, payload: &[u8]) -> Vec<u8> {
    let mut out = Vec::with_capacity(44 + payload.len());
    out.extend(b"NVXS");
    out.extend([1, 0, code, 0]);
    out.extend(id.instance_id);
    out.extend(id.epoch.to_le_bytes());
    out.extend(sequence.to_le_bytes());
    out.extend((payload.len() as u32).to_le_bytes());
    out.extend(payload);
    out
}

/// A header that says a length, with no payload behind it.
pub fn header(code: u8, id: Identity, sequence: u64, length: u32) -> Vec<u8> {
    let mut out = raw(code, id, sequence, &[]);
    out[40..44].copy_from_slice(&length.to_le_bytes());
    out
}

/// An encoder's data: type, instance, epoch, sequence, payload.
pub fn fields(code: u8, id: Identity, sequence: u64, payload: &[u8]) -> Vec<u8> {
    let mut out = vec![code];
    out.extend(id.instance_id);
    out.extend(id.epoch.to_le_bytes());
    out.extend(sequence.to_le_bytes());
    out.extend(payload);
    out
}

/// A payload that the type allows, the shortest of DATA.
pub fn right(code: u8) -> Vec<u8> {
    match code {
        2 => (0..32).collect(),
        4 => 65_536u32.to_le_bytes().to_vec(),
        5 => vec![0xD5],
        8 => 1u32.to_le_bytes().to_vec(),
        9 => 3u32.to_le_bytes().to_vec(),
        _ => vec![],
    }
}

/// A record of the type that any parser accepts: types 1 and 2 get no identity.
pub fn accepted(code: u8, id: Identity, sequence: u64) -> Vec<u8> {
    if code <= 2 {
        raw(code, ZERO, 0, &right(code))
    } else {
        raw(code, id, sequence, &right(code))
    }
}

/// A payload for the type, now and then a wrong one.
pub fn payload(g: &mut Rng, code: u8) -> Vec<u8> {
    let value = |g: &mut Rng, good: &[u32]| {
        let near = g.one_in(6);
        if near { g.pick(&NEAR) as u32 } else { g.pick(good) }.to_le_bytes().to_vec()
    };
    match code {
        2 => {
            let n = if g.one_in(8) { 31 + g.below(3) } else { 32 };
            g.bytes(n)
        }
        4 => value(g, &[65_536, 1 << 20, 4_194_314]),
        8 => value(g, &[1]),
        9 => value(g, &[1, 3, 4_194_314]),
        5 => {
            let n = data_len(g);
            g.bytes(n)
        }
        _ => vec![1; g.one_in(60) as usize],
    }
}

/// A DATA's length: short most often, sometimes 0 or at the limit.
fn data_len(g: &mut Rng) -> usize {
    match g.below(80) {
        0 => 65_536,
        1 => 65_535,
        2 => 1 + g.below(65_536),
        3..=9 => 1 + g.below(2_000),
        10 => 0,
        _ => 1 + g.below(60),
    }
}

/// An identity, where the session has none.
pub fn some_identity(g: &mut Rng) -> Identity {
    Identity { instance_id: [g.pick(&[0x11, 0x22]); 16], epoch: 1 + g.below(3) as u64 }
}

/// A record of one of the types, right for the session most often: each field is wrong with a
/// small chance. A RESET gets a later epoch and any sequence.
pub fn fitting(g: &mut Rng, codes: &[u8], id: Option<Identity>, sequence: u64) -> Vec<u8> {
    let code = if g.one_in(60) { g.below(12) as u8 } else { g.pick(codes) };
    let mut id = id.unwrap_or_else(|| some_identity(g));
    let mut sequence = sequence;
    if code == 3 {
        if g.one_in(6) {
            id.instance_id = [g.pick(&[0x11, 0x22, 0]); 16];
        }
        id.epoch = id.epoch.wrapping_add(!g.one_in(8) as u64);
    }
    if g.one_in(60) {
        id.instance_id[g.below(16)] ^= 1 << g.below(8);
    }
    if g.one_in(60) {
        id.epoch = g.pick(&NEAR);
    }
    if g.one_in(60) {
        sequence = sequence.wrapping_add(g.pick(&[1, u64::MAX]));
    }
    if code == 1 || code == 2 {
        if !g.one_in(6) {
            (id, sequence) = (ZERO, 0);
        }
    }
    let payload = payload(g, code);
    let mut record = raw(code, id, sequence, &payload);
    if g.one_in(80) {
        damage(g, &mut record);
    }
    record
}

/// Damages bytes at one place: a bit, a byte, one too few, one too many.
pub fn damage(g: &mut Rng, bytes: &mut Vec<u8>) {
    let at = if g.one_in(2) { g.below(bytes.len().min(44)) } else { g.below(bytes.len()) };
    match g.below(5) {
        0 | 1 => bytes[at] ^= 1 << g.below(8),
        2 => bytes[at] = g.next() as u8,
        3 => {
            bytes.remove(at);
        }
        _ => bytes.insert(at, g.next() as u8),
    }
}

/// The longest piece: longer than the longest record, and well within a block.
pub const PIECE: usize = 70_000;

/// How much of `left` bytes the next piece takes.
pub fn piece_len(g: &mut Rng, needed: usize, left: usize) -> usize {
    let n = match g.below(9) {
        0 => 1,
        1 => g.below(50),
        2 => 44,
        3 => needed,
        4 => needed + 1,
        5 => g.below(left + 1),
        _ => left,
    };
    n.min(left).min(PIECE)
}
