//! Calls of a host's session.

use super::records::{PIECE, SEVEN, ZERO, accepted, damage, fitting, header, piece_len, raw, right};
use super::{Generator, NEAR, Space};
use crate::format::{AREA, Answer, op};
use crate::protocol::nvxs::Identity;

const STAGE: u64 = 65_536;
const LAST: u64 = u64::MAX;
const CAPABILITY: [u8; 32] = [0xCA; 32];
/// States, as FORMAT.md counts them.
const ATTACHING: u8 = 1;
const ATTACHED: u8 = 2;
const REJECTED: u8 = 3;
const RESET: u8 = 4;
const CLOSED: u8 = 5;
const FAILED: u8 = 6;

fn receive(l: &mut Generator, piece: &[u8]) -> Answer {
    l.call(op::HOST_RECEIVE, STAGE, 0, piece)
}

fn asks(l: &mut Generator) {
    l.call(op::HOST_ASKS, 0, 0, &[]);
}

/// A fresh host led to a state; Attached with sequence 2 due.
fn at(l: &mut Generator, state: u8) {
    l.scene(3_000, 20_000);
    lead(l, state);
}

/// The same, in a block that has room for the longest record.
fn at_long(l: &mut Generator, state: u8) {
    l.scene(70_000, 90_000);
    lead(l, state);
}

fn lead(l: &mut Generator, state: u8) {
    if state >= ATTACHING {
        l.write(op::HOST_ATTACH, 0, Space::ALL, &CAPABILITY);
    }
    if state == REJECTED {
        receive(l, &accepted(8, ZERO, 0));
    } else if state >= ATTACHED {
        receive(l, &accepted(6, ZERO, 0));
        receive(l, &accepted(7, SEVEN, 1));
    }
    match state {
        RESET => drop(receive(l, &raw(3, Identity { epoch: 8, ..SEVEN }, 2, &[]))),
        CLOSED => drop(l.call(op::HOST_DISCONNECT, 0, 0, &[])),
        FAILED => drop(receive(l, &accepted(6, SEVEN, 2))),
        _ => {}
    }
}

/// The sequence due in a state that receives.
fn due(state: u8) -> u64 {
    if state == ATTACHED { 2 } else { 0 }
}

/// Every refusal in every state, every event, every limit.
pub fn aimed(l: &mut Generator) {
    for state in 0..=FAILED {
        every_call(l, state);
        ends(l, state);
        stages(l, state);
    }
    for state in [ATTACHING, ATTACHED] {
        for code in 1..=9 {
            types(l, state, code);
        }
        malformed(l, state);
        sequences(l, state);
    }
    identities(l);
    writes(l);
    sends(l);
    by_stage(l);
}

/// Each call that is not in order in the state, with an output that is too short as well.
fn every_call(l: &mut Generator, state: u8) {
    at(l, state);
    asks(l);
    for space in [Space { len: 10, at: 0 }, Space::ALL] {
        if state != 0 {
            l.write(op::HOST_ATTACH, 0, space, &CAPABILITY);
        }
        if state != ATTACHED {
            l.write(op::HOST_SEND, 0, space, b"x");
            l.write(op::HOST_SEND, 0, space, &[]);
        }
    }
    receive(l, &accepted(6, SEVEN, due(state)));
    asks(l);
}

/// disconnect with nothing buffered, and with some bytes; then once more.
fn ends(l: &mut Generator, state: u8) {
    let record = raw(5, SEVEN, 2, b"data");
    for n in [0, 1, 43, 44, 46] {
        at(l, state);
        receive(l, &record[..n]);
        asks(l);
        l.call(op::HOST_DISCONNECT, 0, 0, &[]);
        l.call(op::HOST_DISCONNECT, 0, 0, &[]);
        receive(l, &record[n..]);
        asks(l);
    }
}

/// 21 in every state, before 20.
fn stages(l: &mut Generator, state: u8) {
    for length in [0, 65_535, 65_600] {
        at(l, state);
        let record = raw(5, SEVEN, 2, b"st");
        l.call(op::HOST_RECEIVE, length, 0, &record[..45]);
        l.call(op::HOST_RECEIVE, length, 0, &record[45..]);
        receive(l, &record);
    }
}

/// A record of each type in a state, with the sequence due and with another.
fn types(l: &mut Generator, state: u8, code: u8) {
    let later = Identity { epoch: 8, ..SEVEN };
    for id in [SEVEN, later] {
        for sequence in [due(state), due(state) + 1] {
            at(l, state);
            receive(l, &accepted(code, id, sequence));
            asks(l);
        }
    }
}

/// push's refusals in a state, and receive after them.
fn malformed(l: &mut Generator, state: u8) {
    let sequence = due(state);
    let mut wrong: Vec<Vec<u8>> = (0..8).map(|_| accepted(6, SEVEN, sequence)).collect();
    for (k, bytes) in wrong.iter_mut().enumerate() {
        bytes[k] ^= 0x40;
    }
    wrong.push(header(7, SEVEN, sequence, 1));
    wrong.push(header(2, SEVEN, 0, 32));
    wrong.push(raw(4, SEVEN, sequence, &4_194_315u32.to_le_bytes()));
    wrong.push(raw(8, SEVEN, sequence, &0u32.to_le_bytes()));
    wrong.push(raw(9, SEVEN, sequence, &4_194_315u32.to_le_bytes()));
    for bytes in wrong {
        at(l, state);
        receive(l, &bytes[..20]);
        receive(l, &bytes[20..]);
        receive(l, &bytes);
        asks(l);
    }
}

/// Sequences at their end, on numbers that no list of calls reaches: 15, then 16, then the rest.
fn sequences(l: &mut Generator, state: u8) {
    let codes: &[u8] = if state == ATTACHING { &[6, 7, 8] } else { &[5, 3] };
    for &code in codes {
        for expected in [LAST - 1, LAST] {
            for (id, sequence) in [(SEVEN, expected), (ZERO, expected), (SEVEN, 1)] {
                at(l, state);
                l.call(op::SET_HOST, 3, expected, &[]);
                receive(l, &raw(code, id, sequence, &right(code)));
                receive(l, &raw(6, id, LAST, &[]));
                asks(l);
            }
        }
    }
}

/// READY, DATA and RESET with identities at their limits.
fn identities(l: &mut Generator) {
    let mut near = SEVEN;
    near.instance_id[15] ^= 1;
    let mut first = Identity { epoch: 9, ..SEVEN };
    first.instance_id[0] ^= 0x80;
    let mut ids = vec![ZERO, Identity { epoch: 9, ..ZERO }, near, first];
    ids.extend([0, 1, 6, 7, 8, LAST].map(|epoch| Identity { epoch, ..SEVEN }));
    for id in ids {
        at(l, ATTACHING);
        receive(l, &raw(7, id, 0, &[]));
        asks(l);
        for code in [5, 3] {
            at(l, ATTACHED);
            receive(l, &raw(code, id, 2, &right(code)));
            asks(l);
        }
    }
}

/// The outputs of attach and send at the limit of their records, and what stands around them.
fn writes(l: &mut Generator) {
    for space in Space::limits(76) {
        at(l, 0);
        let capability: [u8; 32] = l.rng.bytes(32).try_into().unwrap();
        let answer = l.write(op::HOST_ATTACH, 0, space, &capability);
        l.show_written(&answer);
        asks(l);
    }
    for space in Space::limits(47) {
        at(l, ATTACHED);
        let answer = l.write(op::HOST_SEND, 0, space, b"out");
        l.show_written(&answer);
    }
}

/// send with no bytes, one, at the limit of a record, and at the end of the sequences.
fn sends(l: &mut Generator) {
    for n in [0, 1, 2, 300] {
        at(l, ATTACHED);
        let bytes = l.rng.bytes(n);
        l.write(op::HOST_SEND, 0, Space::ALL, &bytes);
        l.write(op::HOST_SEND, 0, Space { len: 65_600, at: 1 }, &bytes);
    }
    for n in [65_536, 65_537] {
        at_long(l, ATTACHED);
        let bytes = l.rng.bytes(n);
        l.write(op::HOST_SEND, 0, Space { len: 65_580, at: 0 }, &bytes);
    }
    for send in [LAST - 1, LAST] {
        for bytes in [&[][..], b"x"] {
            at(l, ATTACHED);
            l.call(op::SET_HOST, send, 2, &[]);
            l.write(op::HOST_SEND, 0, Space { len: 9, at: 0 }, bytes);
            l.write(op::HOST_SEND, 0, Space::ALL, bytes);
            l.write(op::HOST_SEND, 0, Space::ALL, bytes);
        }
    }
}

/// DATA by the stage, shorter from one to the next, and ERROR by the stage.
fn by_stage(l: &mut Generator) {
    at(l, ATTACHED);
    for (k, payload) in [&b"a long payload"[..], b"short", b"xy"].iter().enumerate() {
        let record = raw(5, SEVEN, 2 + k as u64, payload);
        receive(l, &record[..45]);
        receive(l, &record[45..]);
        l.show(AREA, 16);
    }
    at(l, ATTACHING);
    let error = accepted(8, SEVEN, 0);
    receive(l, &error[..46]);
    receive(l, &error[46..]);
    l.show(AREA, 8);
}

/// WAIT and READY, and DATA and RESET, each in one stream and cut in every place.
pub fn cuts(l: &mut Generator, three: bool) {
    let opening = [accepted(6, ZERO, 0), accepted(7, SEVEN, 1)].concat();
    let reset = raw(3, Identity { epoch: 8, ..SEVEN }, 3, &[]);
    let closing = [raw(5, SEVEN, 2, b"uv"), reset].concat();
    for (state, stream, three) in [(ATTACHING, opening, false), (ATTACHED, closing, three)] {
        for first in 0..=stream.len() {
            let last = if three { stream.len() } else { first };
            for second in first..=last {
                if l.done() {
                    return;
                }
                at(l, state);
                pieces(l, &stream, &[first, second, stream.len()]);
            }
        }
    }
}

/// Hands a stream over in pieces that end at the cuts.
fn pieces(l: &mut Generator, stream: &[u8], cuts: &[usize]) {
    let mut from = 0;
    for &end in cuts {
        while from < end {
            let answer = receive(l, &stream[from..end]);
            from += answer.count as usize;
            if answer.refusal.number != 0 || l.done() {
                return;
            }
        }
    }
}

/// A host that lives for up to 60 calls.
pub fn random(l: &mut Generator) {
    l.scene(8_000, 0);
    let mut left = Vec::new();
    for _ in 0..1 + l.rng.below(60) {
        let state = l.world.host.view().state;
        if l.done() || state >= REJECTED && !l.rng.one_in(6) {
            return;
        }
        if state == 0 && !l.rng.one_in(5) {
            let capability: [u8; 32] = l.rng.bytes(32).try_into().unwrap();
            l.write(op::HOST_ATTACH, 0, Space::ALL, &capability);
        } else if l.rng.one_in(4) {
            other(l);
        } else {
            next_piece(l, &mut left);
        }
    }
}

/// A call that is no receive.
fn other(l: &mut Generator) {
    let view = l.world.host.view();
    let space = l.space();
    let answer = match l.rng.below(10) {
        0 => l.write(op::HOST_ATTACH, 0, space, &CAPABILITY),
        1..=4 => {
            let n = match l.rng.below(60) {
                0 => 65_530 + l.rng.below(12),
                n => n - 1,
            };
            let bytes = l.rng.bytes(n);
            l.write(op::HOST_SEND, 0, space, &bytes)
        }
        5 if l.rng.one_in(4) => l.call(op::HOST_DISCONNECT, 0, 0, &[]),
        6 if l.rng.one_in(4) => {
            let (send, due) = (l.rng.pick(&NEAR), l.rng.pick(&NEAR));
            let due = if l.rng.one_in(4) { due } else { view.receive_sequence };
            l.call(op::SET_HOST, send, due, &[])
        }
        7 => {
            let length = if l.rng.one_in(20) { AREA } else { 60 };
            l.show(AREA, length);
            return;
        }
        _ => l.call(op::HOST_ASKS, 0, 0, &[]),
    };
    if answer.next > 0 && l.rng.one_in(8) {
        l.show_written(&answer);
    }
}

/// The next piece of a stream that fits the session.
fn next_piece(l: &mut Generator, left: &mut Vec<u8>) {
    if left.is_empty() {
        *left = stream(l);
    }
    if l.rng.one_in(40) {
        let length = l.rng.below(65_536) as u64;
        l.call(op::HOST_RECEIVE, length, 0, &left[..left.len().min(PIECE)]);
    }
    let n = piece_len(&mut l.rng, l.world.host.needed(), left.len());
    let answer = receive(l, &left[..n]);
    left.drain(..(answer.count as usize).min(left.len()));
    if answer.refusal.number != 0 {
        left.clear();
    }
}

/// WAITs and a READY or ERROR, or a run of DATA, with the sequences due; damaged now and then.
fn stream(l: &mut Generator) -> Vec<u8> {
    let view = l.world.host.view();
    let codes: &[u8] = match view.state {
        ATTACHED => &[5, 5, 5, 5, 5, 5, 5, 5, 5, 3],
        _ => &[6, 6, 6, 7, 7, 7, 7, 8],
    };
    let g = &mut l.rng;
    let runs = if view.state == ATTACHED { 1 + g.below(6) } else { 1 };
    let mut bytes = Vec::new();
    let mut sequence = view.receive_sequence;
    for _ in 0..runs {
        bytes.extend(fitting(g, codes, view.identity, sequence));
        sequence = sequence.wrapping_add(1);
    }
    if g.one_in(12) {
        damage(g, &mut bytes);
    }
    bytes
}
