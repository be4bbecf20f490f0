//! Calls of a guest's session.

use super::records::{PIECE, SEVEN, ZERO, accepted, damage, fitting, header, piece_len, raw};
use super::{Generator, NEAR, Space};
use crate::format::{AREA, Answer, op};
use crate::protocol::nvxs::Identity;

const STAGE: u64 = 65_536;
const LAST: u64 = u64::MAX;
/// States, as FORMAT.md counts them.
const ATTACHING: u8 = 1;
const RESETTING: u8 = 2;
const ACTIVE: u8 = 3;
const CLOSED: u8 = 4;
const FAILED: u8 = 5;

fn receive(l: &mut Generator, piece: &[u8]) -> Answer {
    l.call(op::GUEST_RECEIVE, STAGE, 0, piece)
}

fn asks(l: &mut Generator) {
    l.call(op::GUEST_ASKS, 0, 0, &[]);
}

fn attach(l: &mut Generator) {
    l.write(op::GUEST_ATTACH, 0, Space::ALL, &[]);
}

fn acknowledge(l: &mut Generator, window: u32) {
    l.write(op::ACKNOWLEDGE, window, Space::ALL, &[]);
}

fn credit(l: &mut Generator, amount: u32) -> Answer {
    l.write(op::CREDIT, amount, Space::ALL, &[])
}

/// A DATA of the aimed scenes' identity.
fn data(l: &mut Generator, sequence: u64, payload: &[u8]) -> Answer {
    receive(l, &raw(5, SEVEN, sequence, payload))
}

/// A fresh guest led to a state; Active with a window of 65,536 and sequence 1 due.
fn at(l: &mut Generator, state: u8) {
    l.scene(3_000, 20_000);
    lead(l, state);
}

/// The same, in a block that has room for the longest record.
fn at_long(l: &mut Generator, state: u8) {
    l.scene(70_000, 90_000);
    lead(l, state);
}

fn lead(l: &mut Generator, state: u8) {
    if state >= ATTACHING {
        attach(l);
    }
    if state >= RESETTING {
        receive(l, &raw(3, SEVEN, 0, &[]));
    }
    if state >= ACTIVE {
        acknowledge(l, 65_536);
    }
    match state {
        CLOSED => drop(l.call(op::GUEST_DISCONNECT, 0, 0, &[])),
        FAILED => drop(receive(l, &accepted(6, SEVEN, 1))),
        _ => {}
    }
}

/// Every refusal in every state, every event, every limit.
pub fn aimed(l: &mut Generator) {
    for state in 0..=FAILED {
        every_call(l, state);
        ends(l, state);
        stages(l, state);
    }
    for state in [ATTACHING, RESETTING, ACTIVE] {
        for code in 1..=9 {
            at(l, state);
            receive(l, &accepted(code, SEVEN, 1));
            asks(l);
        }
        malformed(l, state);
        resets(l, state);
    }
    wrong_data(l);
    writes(l);
    windows(l);
    sequences(l);
    sends(l);
    credits(l);
    full_window(l);
    events_by_stage(l);
}

/// Each call that is not in order in the state, with an output that is too short as well.
fn every_call(l: &mut Generator, state: u8) {
    at(l, state);
    asks(l);
    for space in [Space { len: 10, at: 0 }, Space::ALL] {
        if state != 0 {
            l.write(op::GUEST_ATTACH, 0, space, &[]);
        }
        if state != RESETTING {
            l.write(op::ACKNOWLEDGE, 70_000, space, &[]);
            l.write(op::ACKNOWLEDGE, 1, space, &[]);
        }
        if state != ACTIVE {
            l.write(op::GUEST_SEND, 0, space, b"x");
            l.write(op::GUEST_SEND, 0, space, &[]);
            l.write(op::CREDIT, 1, space, &[]);
        }
    }
    receive(l, &accepted(3, SEVEN, 4));
    asks(l);
}

/// disconnect with nothing buffered, and with 1, 44 and 46 bytes; then once more.
fn ends(l: &mut Generator, state: u8) {
    let record = raw(5, SEVEN, 1, b"data");
    for n in [0, 1, 43, 44, 46] {
        at(l, state);
        receive(l, &record[..n]);
        asks(l);
        l.call(op::GUEST_DISCONNECT, 0, 0, &[]);
        l.call(op::GUEST_DISCONNECT, 0, 0, &[]);
        receive(l, &record[n..]);
        asks(l);
    }
}

/// 21 in every state, before 20.
fn stages(l: &mut Generator, state: u8) {
    for length in [0, 65_535, 65_600] {
        at(l, state);
        let record = raw(3, Identity { epoch: 9, ..SEVEN }, 1, &[]);
        l.call(op::GUEST_RECEIVE, length, 0, &record);
        receive(l, &record);
    }
}

/// push's refusals in a state, and receive after them.
fn malformed(l: &mut Generator, state: u8) {
    let mut wrong: Vec<Vec<u8>> = (0..8).map(|_| accepted(3, SEVEN, 1)).collect();
    for (k, bytes) in wrong.iter_mut().enumerate() {
        bytes[k] ^= 0x40;
    }
    wrong.push(header(3, SEVEN, 1, 1));
    wrong.push(header(5, SEVEN, 1, 65_537));
    wrong.push(header(1, SEVEN, 0, 0));
    wrong.push(raw(4, SEVEN, 1, &65_535u32.to_le_bytes()));
    wrong.push(raw(8, SEVEN, 1, &2u32.to_le_bytes()));
    wrong.push(raw(9, SEVEN, 1, &0u32.to_le_bytes()));
    for bytes in wrong {
        at(l, state);
        receive(l, &bytes[..20]);
        receive(l, &bytes[20..]);
        receive(l, &bytes);
        asks(l);
    }
}

/// RESETs with identities, epochs and sequences at their limits.
fn resets(l: &mut Generator, state: u8) {
    let other = Identity { instance_id: [0x22; 16], epoch: 1 };
    let mut near = SEVEN;
    near.instance_id[15] ^= 1;
    let zero_instance = Identity { epoch: 9, ..ZERO };
    for id in [ZERO, zero_instance, near, other] {
        at(l, state);
        receive(l, &raw(3, id, 3, &[]));
        asks(l);
    }
    for epoch in [0, 1, 6, 7, 8, LAST] {
        for sequence in [0, 5, LAST - 1, LAST] {
            at(l, state);
            receive(l, &raw(3, Identity { epoch, ..SEVEN }, sequence, &[]));
            asks(l);
            acknowledge(l, 65_536);
        }
    }
}

/// DATA with one field or several wrong: the first that applies.
fn wrong_data(l: &mut Generator) {
    let mut instance = SEVEN;
    instance.instance_id[0] = 0;
    let mut last = SEVEN;
    last.instance_id[15] = 0x12;
    let epoch = Identity { epoch: 8, ..SEVEN };
    let both = Identity { epoch: 8, ..instance };
    for id in [SEVEN, instance, last, epoch, both, ZERO] {
        for sequence in [1, 0, 2, LAST] {
            at(l, ACTIVE);
            receive(l, &raw(5, id, sequence, b"abc"));
            asks(l);
        }
    }
}

/// The outputs of each call that writes, at the limit of its record, and what stands around it.
fn writes(l: &mut Generator) {
    for space in Space::limits(44) {
        at(l, 0);
        let answer = l.write(op::GUEST_ATTACH, 0, space, &[]);
        l.show_written(&answer);
    }
    for space in Space::limits(48) {
        at(l, RESETTING);
        let answer = l.write(op::ACKNOWLEDGE, 4_194_314, space, &[]);
        l.show_written(&answer);
        at(l, ACTIVE);
        data(l, 1, b"some");
        let answer = l.write(op::CREDIT, 3, space, &[]);
        l.show_written(&answer);
    }
    for space in Space::limits(47) {
        at(l, ACTIVE);
        let answer = l.write(op::GUEST_SEND, 0, space, b"out");
        l.show_written(&answer);
    }
}

/// acknowledge at the limits of the window; a bad one leaves the session as it was.
fn windows(l: &mut Generator) {
    for near in NEAR {
        at(l, RESETTING);
        l.write(op::ACKNOWLEDGE, near as u32, Space { len: 47, at: 0 }, &[]);
        acknowledge(l, near as u32);
        asks(l);
        acknowledge(l, 65_536);
        data(l, 1, b"x");
    }
}

/// Sequences at their end, also numbers that no list of calls reaches.
fn sequences(l: &mut Generator) {
    l.scene(1_000, 0);
    attach(l);
    receive(l, &raw(3, SEVEN, LAST - 1, &[]));
    acknowledge(l, 65_536);
    data(l, LAST, b"m");
    asks(l);
    for send in [LAST - 1, LAST] {
        at(l, ACTIVE);
        data(l, 1, b"five!");
        l.call(op::SET_GUEST, send, 2, &[]);
        for bytes in [&[][..], b"x"] {
            l.write(op::GUEST_SEND, 0, Space { len: 9, at: 0 }, bytes);
            l.write(op::GUEST_SEND, 0, Space::ALL, bytes);
        }
        for amount in [0, 6, 1, 1] {
            l.write(op::CREDIT, amount, Space { len: 9, at: 0 }, &[]);
            credit(l, amount);
        }
        data(l, 2, b"on");
    }
    for due in [LAST - 1, LAST] {
        for (id, sequence) in [(SEVEN, due), (ZERO, due), (SEVEN, 0)] {
            at(l, ACTIVE);
            l.call(op::SET_GUEST, 1, due, &[]);
            receive(l, &raw(5, id, sequence, b"x"));
            receive(l, &raw(5, id, sequence, b"x"));
        }
    }
}

/// send with no bytes, one, and at the limit of a record.
fn sends(l: &mut Generator) {
    for n in [0, 1, 2, 300] {
        at(l, ACTIVE);
        let bytes = l.rng.bytes(n);
        l.write(op::GUEST_SEND, 0, Space::ALL, &bytes);
        l.write(op::GUEST_SEND, 0, Space { len: 65_600, at: 1 }, &bytes);
    }
    for (n, at) in [(65_536, 0), (65_536, 1), (65_537, 0)] {
        at_long(l, ACTIVE);
        let bytes = l.rng.bytes(n);
        l.write(op::GUEST_SEND, 0, Space { len: 65_580, at }, &bytes);
    }
}

/// Amounts at their limits.
fn credits(l: &mut Generator) {
    for amount in [0, 1, 2, 3, 4, u32::MAX] {
        at(l, ACTIVE);
        credit(l, 1);
        data(l, 1, b"abc");
        credit(l, amount);
        asks(l);
        credit(l, 3);
    }
    // outstanding is cleared by the RESET already
    at(l, ACTIVE);
    data(l, 1, b"abc");
    receive(l, &raw(3, Identity { epoch: 8, ..SEVEN }, 2, &[]));
    asks(l);
    acknowledge(l, 65_536);
    credit(l, 1);
}

/// A window that is full but for one byte, then full; credit opens it again.
fn full_window(l: &mut Generator) {
    at_long(l, ACTIVE);
    let long = l.rng.bytes(65_535);
    data(l, 1, &long);
    data(l, 2, b"1");
    asks(l);
    credit(l, 2);
    data(l, 3, b"23");
    data(l, 4, b"4");
    asks(l);
    // one byte too many at once
    at_long(l, ACTIVE);
    data(l, 1, b"ab");
    receive(l, &header(5, SEVEN, 2, 65_535));
    receive(l, &long);
    asks(l);
}

/// RESET and DATA whose last byte comes alone, in each state; old bytes stay out of a payload.
fn events_by_stage(l: &mut Generator) {
    for state in [ATTACHING, RESETTING, ACTIVE] {
        at(l, state);
        let reset = raw(3, Identity { epoch: 8, ..SEVEN }, 5, &[]);
        receive(l, &reset[..43]);
        receive(l, &reset[43..]);
        acknowledge(l, 70_000);
        let id = Identity { epoch: 8, ..SEVEN };
        for (k, payload) in [&b"a long payload"[..], b"short", b"x"].iter().enumerate() {
            let record = raw(5, id, 6 + k as u64, payload);
            let cut = 44 + payload.len() / 2;
            receive(l, &record[..cut]);
            receive(l, &record[cut..]);
            l.show(0, 16);
        }
        asks(l);
    }
}

/// A DATA and a RESET in one stream, cut in every place.
pub fn cuts(l: &mut Generator, three: bool) {
    let reset = raw(3, Identity { epoch: 8, ..SEVEN }, 2, &[]);
    let stream = [raw(5, SEVEN, 1, b"uv"), reset].concat();
    for first in 0..=stream.len() {
        let last = if three { stream.len() } else { first };
        for second in first..=last {
            if l.done() {
                return;
            }
            at(l, ACTIVE);
            pieces(l, &stream, &[first, second, stream.len()]);
        }
    }
}

/// Hands a stream over in pieces that end at the cuts.
fn pieces(l: &mut Generator, stream: &[u8], cuts: &[usize]) {
    let mut from = 0;
    for &end in cuts {
        while from < end {
            let answer = receive(l, &stream[from..end]);
            from += answer.count as usize;
            if answer.refusal.number != 0 || l.done() {
                return;
            }
        }
    }
}

/// A guest that lives for up to 60 calls.
pub fn random(l: &mut Generator) {
    l.scene(8_000, 0);
    let mut left = Vec::new();
    for _ in 0..1 + l.rng.below(60) {
        let state = l.world.guest.view().state;
        if l.done() || state >= CLOSED && !l.rng.one_in(6) {
            return;
        }
        if state == 0 && !l.rng.one_in(5) {
            attach(l);
        } else if state == RESETTING && l.rng.one_in(3) {
            let window = l.rng.pick(&[65_536, 70_000, 4_194_314]);
            acknowledge(l, window);
        } else if l.rng.one_in(3) {
            other(l);
        } else {
            next_piece(l, &mut left);
        }
    }
}

/// A call that is no receive.
fn other(l: &mut Generator) {
    let view = l.world.guest.view();
    let space = l.space();
    let answer = match l.rng.below(14) {
        0 => l.write(op::GUEST_ATTACH, 0, space, &[]),
        1 | 2 => {
            let window = l.rng.pick(&NEAR) as u32;
            l.write(op::ACKNOWLEDGE, window, space, &[])
        }
        3..=5 => {
            let n = match l.rng.below(60) {
                0 => 65_530 + l.rng.below(12),
                n => n - 1,
            };
            let bytes = l.rng.bytes(n);
            l.write(op::GUEST_SEND, 0, space, &bytes)
        }
        6..=8 => {
            let open = l.rng.below(view.outstanding as usize + 2) as u32;
            let amount = if l.rng.one_in(6) { l.rng.pick(&NEAR) as u32 } else { open };
            l.write(op::CREDIT, amount, space, &[])
        }
        9 if l.rng.one_in(4) => l.call(op::GUEST_DISCONNECT, 0, 0, &[]),
        10 if l.rng.one_in(4) => {
            let (send, due) = (l.rng.pick(&NEAR), l.rng.pick(&NEAR));
            let due = if l.rng.one_in(4) { due } else { view.receive_sequence };
            l.call(op::SET_GUEST, send, due, &[])
        }
        11 => {
            let length = if l.rng.one_in(20) { AREA } else { 60 };
            l.show(0, length);
            return;
        }
        _ => l.call(op::GUEST_ASKS, 0, 0, &[]),
    };
    if answer.next > 0 && l.rng.one_in(8) {
        l.show_written(&answer);
    }
}

/// The next piece of a stream that fits the session.
fn next_piece(l: &mut Generator, left: &mut Vec<u8>) {
    if left.is_empty() {
        *left = stream(l);
    }
    if l.rng.one_in(40) {
        let length = l.rng.below(65_536) as u64;
        l.call(op::GUEST_RECEIVE, length, 0, &left[..left.len().min(PIECE)]);
    }
    let n = piece_len(&mut l.rng, l.world.guest.needed(), left.len());
    let answer = receive(l, &left[..n]);
    left.drain(..(answer.count as usize).min(left.len()));
    if answer.refusal.number != 0 {
        left.clear();
    }
}

/// One RESET, or a run of DATA with the sequences due; damaged now and then.
fn stream(l: &mut Generator) -> Vec<u8> {
    let view = l.world.guest.view();
    let g = &mut l.rng;
    if view.state != ACTIVE {
        let sequence = if g.one_in(2) { g.pick(&NEAR) } else { view.receive_sequence };
        return fitting(g, &[3], view.identity, sequence);
    }
    let mut bytes = Vec::new();
    let mut sequence = view.receive_sequence;
    for _ in 0..1 + g.below(6) {
        bytes.extend(fitting(g, &[5, 5, 5, 5, 5, 5, 5, 5, 5, 3], view.identity, sequence));
        sequence = sequence.wrapping_add(1);
    }
    if g.one_in(12) {
        damage(g, &mut bytes);
    }
    bytes
}
