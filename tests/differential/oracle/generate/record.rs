//! Calls of the record encoder and the questions about types and codes.

use super::records::{SEVEN, ZERO, fields, payload, right, some_identity};
use super::{Generator, NEAR, Space};
use crate::format::op;
use crate::protocol::nvxs::Identity;

/// Every refusal and every limit.
pub fn aimed(l: &mut Generator) {
    l.scene(0, 0);
    for code in 1..=9 {
        let id = if code <= 2 { ZERO } else { SEVEN };
        lengths(l, code, id);
        for space in Space::limits(44 + right(code).len() as u64) {
            let answer = l.write(op::ENCODE_RECORD, 0, space, &fields(code, id, 0, &right(code)));
            l.show_written(&answer);
        }
    }
    bootstrap(l);
    for code in [4, 8, 9] {
        for near in NEAR {
            let value = (near as u32).to_le_bytes();
            l.write(op::ENCODE_RECORD, 0, Space::ALL, &fields(code, SEVEN, 1, &value));
            l.write(op::ENCODE_RECORD, 0, Space { len: 0, at: 0 }, &fields(code, SEVEN, 1, &value));
        }
    }
    for n in [65_535, 65_536, 65_537] {
        let data = fields(5, SEVEN, 4, &l.rng.bytes(n));
        l.write(op::ENCODE_RECORD, 0, Space { len: 65_600, at: 20 }, &data);
    }
    asks(l);
}

/// Lengths around those that types allow, with a wrong identity too: 5 comes before 6.
fn lengths(l: &mut Generator, code: u8, id: Identity) {
    for n in [0, 1, 3, 4, 5, 31, 32, 33] {
        let data = fields(code, id, 0, &vec![0; n]);
        l.write(op::ENCODE_RECORD, 0, Space::ALL, &data);
        let data = fields(code, SEVEN, 2, &vec![0; n]);
        l.write(op::ENCODE_RECORD, 0, Space { len: 40, at: 0 }, &data);
    }
}

/// Types 1 and 2 with one field that is not zero.
fn bootstrap(l: &mut Generator) {
    let mut last_byte = ZERO;
    last_byte.instance_id[15] = 1;
    let epoch = Identity { epoch: 1 << 63, ..ZERO };
    for code in [1, 2] {
        for (id, sequence) in [(last_byte, 0), (epoch, 0), (ZERO, 1), (ZERO, 1 << 56)] {
            let data = fields(code, id, sequence, &right(code));
            l.write(op::ENCODE_RECORD, 0, Space::ALL, &data);
        }
    }
}

/// Each code with each limit of the lengths; error codes.
fn asks(l: &mut Generator) {
    for code in 0..=255 {
        l.call(op::TYPE_ASKS, code, 4, &[]);
    }
    for code in 1..=9 {
        for length in [0, 1, 31, 32, 33, 65_535, 65_536, 65_537, u32::MAX as u64] {
            l.call(op::TYPE_ASKS, code, length, &[]);
        }
    }
    for value in NEAR {
        l.call(op::ERROR_ASKS, value, 0, &[]);
    }
}

/// Some records with any values.
pub fn random(l: &mut Generator) {
    l.scene(4_000, 0);
    for _ in 0..1 + l.rng.below(12) {
        let g = &mut l.rng;
        let code = 1 + g.below(9) as u8;
        let (id, sequence) = if code <= 2 && !g.one_in(4) {
            (ZERO, 0)
        } else {
            (some_identity(g), g.pick(&NEAR))
        };
        let of = if g.one_in(8) { 1 + g.below(9) as u8 } else { code };
        let data = fields(code, id, sequence, &payload(g, of));
        let space = l.space();
        let answer = l.write(op::ENCODE_RECORD, 0, space, &data);
        if l.rng.one_in(8) {
            l.show_written(&answer);
        }
    }
}
