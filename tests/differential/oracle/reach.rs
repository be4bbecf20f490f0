//! What a list of calls reached: which refusal, event and place of which operation, and in which
//! state; and what each layer has to reach.

use crate::format::{Answer, name, op};
use crate::layers::{Layer, Layers};
use std::collections::BTreeMap;

/// Operation, refusal (0: none), detail.
type Mark = (u8, u8, u32);

/// How often each mark was met.
#[derive(Default)]
pub struct Reach {
    counts: BTreeMap<Mark, u64>,
}

impl Reach {
    /// Counts one answer. `before` is the state that the call met, and whether its parser had
    /// latched an error.
    pub fn add(&mut self, number: u8, before: (u8, bool), answer: &Answer) {
        let mark = (number, answer.refusal.number, detail(number, before, answer));
        *self.counts.entry(mark).or_insert(0) += 1;
    }

    /// One line for each mark that was met.
    pub fn lines(&self) -> Vec<String> {
        self.counts.iter().map(|(mark, count)| format!("{}: {count}", text(mark))).collect()
    }

    /// The marks that the layers have to reach and that were not met.
    pub fn missing(&self, layers: &Layers) -> Vec<String> {
        let due = layers.iter().flat_map(required);
        due.filter(|mark| !self.counts.contains_key(mark)).map(|mark| text(&mark)).collect()
    }
}

/// What tells answers with one number apart: the state met, the type in question, event and place.
fn detail(number: u8, (state, latched): (u8, bool), answer: &Answer) -> u32 {
    let state = u32::from(state);
    match answer.refusal.number {
        0 => match number {
            op::PUSH => u32::from(answer.record_type) * 10 + u32::from(answer.place),
            op::GUEST_RECEIVE | op::HOST_RECEIVE => {
                state * 100 + u32::from(answer.event) * 10 + u32::from(answer.place)
            }
            10..=29 => state,
            _ => 0,
        },
        1..=9 if number == op::PUSH => latched.into(),
        5 | 6 if number == op::ENCODE_RECORD => answer.refusal.a as u32,
        10 => state * 10 + answer.refusal.a as u32,
        11 | 16 => answer.refusal.a as u32,
        19 | 20 => state,
        _ => 0,
    }
}

/// A mark in words.
fn text(&(number, refusal, detail): &Mark) -> String {
    let what = match (number, refusal) {
        (op::PUSH, 0) => format!("type {} place {}", detail / 10, detail % 10),
        (op::GUEST_RECEIVE | op::HOST_RECEIVE, 0) => {
            format!("state {} event {} place {}", detail / 100, detail / 10 % 10, detail % 10)
        }
        (10..=29, 0) | (_, 19 | 20) => format!("state {detail}"),
        (op::PUSH, 1..=9) => format!("latched {detail}"),
        (_, 10) => format!("state {} type {}", detail / 10, detail % 10),
        (_, 11 | 16) | (op::ENCODE_RECORD, 5 | 6) => format!("type {detail}"),
        _ => return format!("{}, refusal {refusal}", name(number)),
    };
    format!("{}, refusal {refusal}, {what}", name(number))
}

/// The marks of an operation and a refusal with each of some details.
fn each(number: u8, refusal: u8, details: &[u32]) -> Vec<Mark> {
    details.iter().map(|&detail| (number, refusal, detail)).collect()
}

/// The marks of an operation with each of some refusals.
fn plain(number: u8, refusals: &[u8]) -> Vec<Mark> {
    refusals.iter().map(|&refusal| (number, refusal, 0)).collect()
}

/// What a layer has to reach.
fn required(layer: Layer) -> Vec<Mark> {
    match layer {
        Layer::Outer => outer(),
        Layer::Record => record(),
        Layer::Parser => parser(),
        Layer::Guest => guest(),
        Layer::Host => host(),
    }
}

fn outer() -> Vec<Mark> {
    [
        plain(op::ENCODE_OUTER, &[0, 22, 24]),
        plain(op::DECODE_OUTER, &[0, 25, 26]),
        plain(op::ENCODE_ACK, &[0, 27]),
        plain(op::DECODE_ACK, &[0, 27, 29]),
        plain(op::ENCODE_CREDIT, &[0, 28]),
        plain(op::DECODE_CREDIT, &[0, 28, 29]),
    ]
    .concat()
}

fn record() -> Vec<Mark> {
    [
        plain(op::ENCODE_RECORD, &[0, 7, 8, 9, 22]),
        each(op::ENCODE_RECORD, 5, &[1, 2, 3, 4, 5, 6, 7, 8, 9]),
        each(op::ENCODE_RECORD, 6, &[1, 2]),
        plain(op::TYPE_ASKS, &[0]),
        plain(op::ERROR_ASKS, &[0]),
    ]
    .concat()
}

/// A record of each type whole in a piece, and by the stage where its payload has two bytes; each
/// error, fresh and latched.
fn parser() -> Vec<Mark> {
    let mut marks = vec![(op::PUSH, 0, 0), (op::PUSH, 21, 0), (op::PARSER_ASKS, 0, 0)];
    marks.extend((1..=9).map(|code| (op::PUSH, 0, code * 10 + 1)));
    marks.extend([2, 4, 5, 8, 9].map(|code| (op::PUSH, 0, code * 10 + 2)));
    for number in 1..=9 {
        marks.extend(each(op::PUSH, number, &[0, 1]));
    }
    marks
}

fn guest() -> Vec<Mark> {
    let receive = op::GUEST_RECEIVE;
    let unexpected = [11, 12, 14, 15, 16, 17, 18, 19, 21, 22, 24, 25, 26, 27, 28, 29];
    let in_active = [31, 32, 34, 36, 37, 38, 39];
    [
        each(op::GUEST_ATTACH, 0, &[0]),
        each(op::GUEST_ATTACH, 20, &[1, 2, 3, 4, 5]),
        plain(op::GUEST_ATTACH, &[22]),
        each(receive, 0, &[100, 110, 200, 210, 300, 310, 321, 322]),
        plain(receive, &[1, 2, 3, 4, 5, 6, 7, 8, 9, 12, 13, 14, 15, 17, 21]),
        each(receive, 10, &unexpected),
        each(receive, 10, &in_active),
        each(receive, 11, &[3]),
        each(receive, 16, &[3, 5]),
        each(receive, 20, &[0, 4, 5]),
        each(op::ACKNOWLEDGE, 0, &[2]),
        each(op::ACKNOWLEDGE, 20, &[0, 1, 3, 4, 5]),
        plain(op::ACKNOWLEDGE, &[8, 22]),
        each(op::GUEST_SEND, 0, &[3]),
        each(op::GUEST_SEND, 16, &[5]),
        each(op::GUEST_SEND, 20, &[0, 1, 2, 4, 5]),
        plain(op::GUEST_SEND, &[5, 22]),
        each(op::CREDIT, 0, &[3]),
        each(op::CREDIT, 16, &[9]),
        each(op::CREDIT, 20, &[0, 1, 2, 4, 5]),
        plain(op::CREDIT, &[18, 22]),
        each(op::GUEST_DISCONNECT, 0, &[0, 1, 2, 3, 4, 5]),
        each(op::GUEST_DISCONNECT, 19, &[1, 2, 3]),
        each(op::GUEST_ASKS, 0, &[0, 1, 2, 3, 4, 5]),
    ]
    .concat()
}

fn host() -> Vec<Mark> {
    let receive = op::HOST_RECEIVE;
    let unexpected = [11, 12, 13, 14, 15, 19, 21, 22, 24, 26, 27, 28, 29];
    [
        each(op::HOST_ATTACH, 0, &[0]),
        each(op::HOST_ATTACH, 20, &[1, 2, 3, 4, 5, 6]),
        plain(op::HOST_ATTACH, &[22]),
        each(receive, 0, &[100, 130, 140, 150, 200, 261, 262, 270]),
        plain(receive, &[1, 2, 3, 4, 5, 6, 7, 8, 9, 12, 13, 14, 15, 21]),
        each(receive, 10, &unexpected),
        each(receive, 11, &[3, 7]),
        each(receive, 16, &[3, 5, 6, 7, 8]),
        each(receive, 20, &[0, 3, 4, 5, 6]),
        each(op::HOST_SEND, 0, &[2]),
        each(op::HOST_SEND, 16, &[5]),
        each(op::HOST_SEND, 20, &[0, 1, 3, 4, 5, 6]),
        plain(op::HOST_SEND, &[5, 22]),
        each(op::HOST_DISCONNECT, 0, &[0, 1, 2, 3, 4, 5, 6]),
        each(op::HOST_DISCONNECT, 19, &[1, 2]),
        each(op::HOST_ASKS, 0, &[0, 1, 2, 3, 4, 5, 6]),
    ]
    .concat()
}
