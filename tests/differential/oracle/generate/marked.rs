//! M1 to M10 of 01, and what 01 says of each: the reference has to answer so.

use super::records::{SEVEN, fields, header, raw};
use super::{Generator, Space};
use crate::format::{Answer, op};
use crate::protocol::nvxs::Identity;

const STAGE: u64 = 65_536;
const LAST: u64 = u64::MAX;

/// Fails where the reference answers another refusal than 01 says. A list that is full by now
/// has no answer to look at.
fn says(l: &Generator, mark: &str, answer: &Answer, refusal: u8) {
    if !l.done() {
        assert_eq!(answer.refusal.number, refusal, "the reference does not keep {mark} of 01");
    }
}

fn encode(l: &mut Generator, code: u8, payload: &[u8]) -> Answer {
    l.write(op::ENCODE_RECORD, 0, Space::ALL, &fields(code, SEVEN, 0, payload))
}

/// M1 to M4 of the encoder.
pub fn encoder(l: &mut Generator) {
    l.scene(0, 0);
    let m1 = encode(l, 3, &[]);
    says(l, "M1", &m1, 0);
    let mut bytes = b"NVXS\x01\x00\x03\x00".to_vec();
    bytes.extend([0x11; 16]);
    bytes.extend([7, 0, 0, 0, 0, 0, 0, 0]);
    bytes.extend([0; 12]);
    assert!(l.done() || m1.written == bytes, "the reference does not keep M1 of 01");
    for (mark, window, refusal) in
        [("M2", 65_535u32, 8), ("M2", 65_536, 0), ("M3", 4_194_314, 0), ("M3", 4_194_315, 8)]
    {
        let answer = encode(l, 4, &window.to_le_bytes());
        says(l, mark, &answer, refusal);
    }
    for (n, refusal) in [(0, 5), (1, 0), (65_536, 0), (65_537, 5)] {
        let answer = encode(l, 5, &vec![3; n]);
        says(l, "M4", &answer, refusal);
    }
}

/// M2 to M5 of the parser.
pub fn parser(l: &mut Generator) {
    for (window, refusal) in [(65_535u32, 8), (65_536, 0), (4_194_314, 0), (4_194_315, 8)] {
        l.scene(0, 0);
        let answer = l.call(op::PUSH, STAGE, 0, &raw(4, SEVEN, 0, &window.to_le_bytes()));
        says(l, "M2 or M3", &answer, refusal);
    }
    for (length, refusal) in [(0, 5), (1, 0), (65_536, 0), (65_537, 5)] {
        l.scene(0, 0);
        let answer = l.call(op::PUSH, STAGE, 0, &header(5, SEVEN, 0, length));
        says(l, "M4", &answer, refusal);
    }
    l.scene(0, 0);
    let answer = l.call(op::PUSH, STAGE, 0, &[0xFF; 43]);
    says(l, "M5", &answer, 0);
    let asks = l.call(op::PARSER_ASKS, 0, 0, &[]);
    assert!(l.done() || asks.next == 1, "the reference does not keep M5 of 01");
    let answer = l.call(op::PUSH, STAGE, 0, &[0xFF]);
    says(l, "M5", &answer, 1);
}

/// A fresh guest with the aimed identity and a sequence, Active with a window of 65,536.
fn active(l: &mut Generator, sequence: u64) {
    l.scene(70_000, 90_000);
    l.write(op::GUEST_ATTACH, 0, Space::ALL, &[]);
    l.call(op::GUEST_RECEIVE, STAGE, 0, &raw(3, SEVEN, sequence, &[]));
    let answer = l.write(op::ACKNOWLEDGE, 65_536, Space::ALL, &[]);
    says(l, "the way to Active", &answer, 0);
}

fn receive(l: &mut Generator, record: &[u8]) -> Answer {
    l.call(op::GUEST_RECEIVE, STAGE, 0, record)
}

/// M6 to M10 of the guest.
pub fn guest(l: &mut Generator) {
    active(l, 0);
    let answer = l.write(op::GUEST_SEND, 0, Space::ALL, &[]);
    says(l, "M6", &answer, 5);
    l.call(op::SET_GUEST, LAST, 1, &[]);
    let answer = l.write(op::GUEST_SEND, 0, Space::ALL, &[]);
    says(l, "M6", &answer, 16);
    let other = Identity { instance_id: [0x22; 16], epoch: 1 };
    let eighth = Identity { epoch: 8, ..SEVEN };
    for (id, refusal) in [(SEVEN, 14), (eighth, 0), (other, 0)] {
        active(l, 0);
        let answer = receive(l, &raw(3, id, 1, &[]));
        says(l, "M7", &answer, refusal);
    }
    active(l, 0);
    receive(l, &raw(5, SEVEN, 1, b"abc"));
    for (amount, refusal) in [(0, 18), (4, 18), (3, 0)] {
        let answer = l.write(op::CREDIT, amount, Space::ALL, &[]);
        says(l, "M8", &answer, refusal);
    }
    active(l, 0);
    receive(l, &raw(5, SEVEN, 1, &[7; 65_535]));
    for (sequence, refusal) in [(2, 0), (3, 17)] {
        let answer = receive(l, &raw(5, SEVEN, sequence, &[1]));
        says(l, "M9", &answer, refusal);
    }
    active(l, LAST - 1);
    let answer = receive(l, &raw(5, SEVEN, LAST, &[1]));
    says(l, "M10", &answer, 16);
}
