//! Calls of the plain layer.

use super::records::{SEVEN, fields, header, raw};
use super::{Generator, NEAR, Space};
use crate::format::op;

const PAIRS: [(u8, u8); 2] =
    [(op::ENCODE_ACK, op::DECODE_ACK), (op::ENCODE_CREDIT, op::DECODE_CREDIT)];

/// Every refusal and every limit.
pub fn aimed(l: &mut Generator) {
    l.scene(0, 0);
    for code in [0, 1, 3, 5, 9, 10, 255] {
        let data = fields(code, SEVEN, 3, &[code; 5]);
        let answer = l.write(op::ENCODE_OUTER, 0, Space { len: 65_600, at: 11 }, &data);
        l.show_written(&answer);
    }
    for space in Space::limits(46) {
        l.write(op::ENCODE_OUTER, 0, space, &fields(5, SEVEN, u64::MAX, &[7, 8]));
    }
    for space in Space::limits(44) {
        l.write(op::ENCODE_OUTER, 0, space, &fields(3, SEVEN, 0, &[]));
    }
    long_payloads(l);
    headers(l);
    for near in NEAR {
        values(l, near as u32);
    }
    for n in [0, 1, 2, 3, 5, 8, 44] {
        l.call(op::DECODE_ACK, 0, 0, &[0, 0, 1, 0].repeat(11)[..n]);
        l.call(op::DECODE_CREDIT, 0, 0, &[1, 0, 0, 0].repeat(11)[..n]);
    }
}

/// Payloads at the limit of 65,536 bytes; 24 comes before 22.
fn long_payloads(l: &mut Generator) {
    for n in [65_535, 65_536, 65_537] {
        let data = fields(5, SEVEN, 1, &l.rng.bytes(n));
        l.write(op::ENCODE_OUTER, 0, Space { len: 65_600, at: 20 }, &data);
    }
    let data = fields(5, SEVEN, 1, &[9; 65_537]);
    l.write(op::ENCODE_OUTER, 0, Space { len: 0, at: 1 }, &data);
}

/// A header with each bit of magic, version, type and flags turned, and lengths at the limit.
fn headers(l: &mut Generator) {
    for bit in 0..64 {
        let mut bytes = header(5, SEVEN, 9, 3);
        bytes[bit / 8] ^= 1 << (bit % 8);
        l.call(op::DECODE_OUTER, 0, 0, &bytes);
    }
    for length in NEAR {
        l.call(op::DECODE_OUTER, 0, 0, &header(200, SEVEN, u64::MAX, length as u32));
    }
    let mut both = header(5, SEVEN, 9, 65_537);
    both[7] = 1;
    l.call(op::DECODE_OUTER, 0, 0, &both);
    let own: Vec<u8> = (0..44).map(|i| [b'N', b'V', b'X', b'S', 1, 0, 77, 0][i.min(7)]).collect();
    l.call(op::DECODE_OUTER, 0, 0, &own);
}

/// A value through both pairs.
fn values(l: &mut Generator, value: u32) {
    for (encode, decode) in PAIRS {
        l.call(encode, value.into(), 0, &[]);
        l.call(decode, 0, 0, &value.to_le_bytes());
    }
}

/// Some calls with any values.
pub fn random(l: &mut Generator) {
    l.scene(4_000, 0);
    for _ in 0..1 + l.rng.below(12) {
        match l.rng.below(4) {
            0 => encode(l),
            1 => decode(l),
            2 => {
                let near = l.rng.one_in(2);
                let value = if near { l.rng.pick(&NEAR) } else { l.rng.next() };
                values(l, value as u32);
            }
            _ => {
                let (n, decode) = (l.rng.below(9), l.rng.pick(&PAIRS).1);
                let data = l.rng.bytes(n);
                l.call(decode, 0, 0, &data);
            }
        }
    }
}

fn encode(l: &mut Generator) {
    let g = &mut l.rng;
    let n = if g.one_in(30) { 65_530 + g.below(12) } else { g.below(60) };
    let mut id = SEVEN;
    id.epoch = g.next();
    id.instance_id = g.bytes(16).try_into().unwrap();
    let data = fields(g.next() as u8, id, g.next(), &g.bytes(n));
    let space = l.space();
    let answer = l.write(op::ENCODE_OUTER, 0, space, &data);
    if l.rng.one_in(8) {
        l.show_written(&answer);
    }
}

fn decode(l: &mut Generator) {
    let g = &mut l.rng;
    let mut bytes = raw(g.next() as u8, SEVEN, g.next(), &[]);
    bytes[8..40].copy_from_slice(&g.bytes(32));
    if g.one_in(2) {
        bytes[40..44].copy_from_slice(&(g.pick(&NEAR) as u32).to_le_bytes());
    }
    if g.one_in(3) {
        bytes[g.below(44)] ^= 1 << g.below(8);
    }
    l.call(op::DECODE_OUTER, 0, 0, &bytes);
}
