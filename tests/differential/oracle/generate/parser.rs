//! Pushes on a bare parser.

use super::records::{PIECE, SEVEN, ZERO, accepted, damage, fitting, header, piece_len, raw, right};
use super::{Cuts, Generator, NEAR};
use crate::format::{AREA, Answer, op};

const STAGE: u64 = 65_536;
/// Where the bare parser's stage stands in the memory.
const AT: usize = 2 * AREA;

/// A push with a whole stage.
fn push(l: &mut Generator, piece: &[u8]) -> Answer {
    l.call(op::PUSH, STAGE, 0, piece)
}

/// A new parser.
fn renew(l: &mut Generator) {
    l.call(op::NEW_PARSER, 0, 0, &[]);
}

/// Pushes a stream in pieces that end at the cuts, and goes on where a record ended early, until
/// all is taken or an error comes.
fn pieces(l: &mut Generator, stream: &[u8], cuts: &[usize]) {
    let mut at = 0;
    for end in cuts.iter().copied().chain([stream.len()]) {
        loop {
            let answer = push(l, &stream[at..end]);
            at += answer.count as usize;
            if answer.refusal.number != 0 || l.done() {
                return;
            }
            if at == end {
                break;
            }
        }
    }
}

/// Every refusal, fresh and latched, and every limit.
pub fn aimed(l: &mut Generator) {
    l.scene(0, 0);
    latched(l);
    for code in 1..=9 {
        renew(l);
        let record = accepted(code, SEVEN, 5);
        pieces(l, &record, &[]);
        pieces(l, &record, &[44]);
        pieces(l, &record, &[43, record.len() - 1]);
        pieces(l, &[record.clone(), record].concat(), &[50]);
        l.call(op::PARSER_ASKS, 0, 0, &[]);
        l.show(AT, 48);
    }
    wrong_headers(l);
    wrong_values(l);
    stages(l);
    long_payloads(l);
}

/// Bytes that make no header, and the latched error again.
fn latched(l: &mut Generator) {
    push(l, &[]);
    push(l, &[0xFF; 43]);
    l.call(op::PARSER_ASKS, 0, 0, &[]);
    push(l, &[0xFF]);
    l.call(op::PARSER_ASKS, 0, 0, &[]);
    push(l, &[]);
    push(l, &accepted(3, SEVEN, 0));
}

/// A header pushed to a new parser, at once and after 43 bytes, then once more.
fn refused(l: &mut Generator, bytes: &[u8]) {
    renew(l);
    push(l, bytes);
    push(l, bytes);
    renew(l);
    push(l, &bytes[..43]);
    push(l, &bytes[43..]);
}

/// Each bit of the first eight bytes turned; lengths, types and identities at their limits.
fn wrong_headers(l: &mut Generator) {
    for bit in 0..64 {
        let mut bytes = accepted(3, SEVEN, 1);
        bytes[bit / 8] ^= 1 << (bit % 8);
        refused(l, &bytes);
    }
    for code in 1..=9 {
        let id = if code <= 2 { ZERO } else { SEVEN };
        for length in [0, 1, 3, 4, 5, 31, 32, 33, 65_536, 65_537, 1 << 31, u32::MAX] {
            refused(l, &header(code, id, 0, length));
        }
        refused(l, &header(code, SEVEN, 0, right(code).len() as u32));
        refused(l, &header(code, ZERO, 1 << 63, right(code).len() as u32));
    }
    // several wrong at once: the first that applies
    for (code, flags) in [(0, 1), (10, 0), (255, 255), (5, 1)] {
        let mut bytes = header(code, SEVEN, 0, 0);
        bytes[7] = flags;
        refused(l, &bytes);
    }
}

/// Values at their limits, by the piece and by the stage.
fn wrong_values(l: &mut Generator) {
    for code in [4, 8, 9] {
        for near in NEAR {
            let record = raw(code, SEVEN, 2, &(near as u32).to_le_bytes());
            for cuts in [&[][..], &[46][..], &[44][..]] {
                renew(l);
                pieces(l, &record, cuts);
                push(l, &[1]);
                l.show(AT, 6);
            }
        }
    }
}

/// Stages that are too short, whole, and longer than whole.
fn stages(l: &mut Generator) {
    let record = raw(5, SEVEN, 3, b"stage");
    for length in [0, 1, 44, 65_535, 65_536, 65_600] {
        renew(l);
        l.call(op::PUSH, length, 0, &record[..46]);
        l.call(op::PUSH, length, 0, &record[46..]);
        l.show(AT, 8);
    }
    renew(l);
    push(l, &[0xFF; 44]);
    l.call(op::PUSH, 65_535, 0, &[]); // 21 before the latched error
}

/// The longest payload whole, cut near its ends, and after it a short one: old bytes of the stage
/// stay out of the payload.
fn long_payloads(l: &mut Generator) {
    let long = raw(5, SEVEN, 3, &l.rng.bytes(65_536));
    for cuts in [&[][..], &[44][..], &[43, 45][..], &[44 + 65_535][..]] {
        l.scene(70_000, 80_000);
        pieces(l, &long, cuts);
        pieces(l, &raw(5, SEVEN, 4, b"short"), &[46]);
        l.show(AT, 16);
        l.show(AT + AREA - 72, 72);
    }
    l.scene(100, 0);
    push(l, &header(5, SEVEN, 3, 65_537));
    push(l, &[]);
}

/// Streams of a record of each type, and of two records, cut in every place.
pub fn cuts(l: &mut Generator, cuts: Cuts) {
    let mut streams = vec![raw(5, SEVEN, 1, b"abcde"), raw(8, SEVEN, 1, &[2, 0, 0, 0])];
    if cuts != Cuts::Few {
        streams.extend((1..=9).map(|code| accepted(code, SEVEN, 8)));
    }
    for stream in &streams {
        all_cuts(l, stream, cuts == Cuts::Three);
    }
    let two = [raw(9, SEVEN, 2, &[1, 0, 0, 0]), raw(5, SEVEN, 3, b"xy")].concat();
    all_cuts(l, &two, false);
}

fn all_cuts(l: &mut Generator, stream: &[u8], three: bool) {
    l.scene(0, 0);
    for first in 0..=stream.len() {
        let last = if three { stream.len() } else { first };
        for second in first..=last {
            if l.done() {
                return;
            }
            renew(l);
            pieces(l, stream, &[first, second]);
        }
    }
    l.show(AT, 80);
}

/// A stream of records, one of them damaged now and then, in random pieces.
pub fn random(l: &mut Generator) {
    l.scene(8_000, 0);
    let mut left = Vec::new();
    for _ in 0..1 + l.rng.below(60) {
        if l.done() {
            return;
        }
        if left.is_empty() {
            left = stream(l);
        }
        let view = l.world.parser.view();
        if view.error.is_some() && !l.rng.one_in(4) {
            renew(l);
            left = stream(l);
        }
        turn(l, &mut left);
    }
}

/// A push of the stream's next piece, or a question, or a stage too short.
fn turn(l: &mut Generator, left: &mut Vec<u8>) {
    match l.rng.below(40) {
        0 => {
            l.call(op::PARSER_ASKS, 0, 0, &[]);
        }
        1 => {
            let length = l.rng.below(65_536) as u64;
            l.call(op::PUSH, length, 0, &left[..left.len().min(PIECE)]);
        }
        2 => l.show(AT, 100),
        3 if l.rng.one_in(20) => l.show(AT, AREA),
        _ => {
            let n = piece_len(&mut l.rng, l.world.parser.needed(), left.len());
            let answer = push(l, &left[..n]);
            left.drain(..answer.count as usize);
            if answer.refusal.number != 0 {
                left.clear();
            }
        }
    }
}

/// A few records of any type, with a damaged place one time in six.
fn stream(l: &mut Generator) -> Vec<u8> {
    let g = &mut l.rng;
    let mut bytes = Vec::new();
    for _ in 0..1 + g.below(4) {
        bytes.extend(fitting(g, &[1, 2, 3, 4, 5, 6, 7, 8, 9], None, 3));
    }
    if g.one_in(6) {
        damage(g, &mut bytes);
    }
    bytes
}
