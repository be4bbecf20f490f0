//! The cases: what each runs on, its goal, and the check that both sides give the same answers.

use crate::protocol::nvxs::{RecordType, encode_record};
use crate::rust::Sums;
use crate::{rattle, rust};

#[derive(Clone, Copy, PartialEq)]
pub enum Kind {
    Receive,
    Send,
    Echo,
}

/// A case: payloads of so many bytes, and for a receive pieces of so many bytes (0: the whole
/// stream is one).
#[derive(Clone, Copy)]
pub struct Case {
    pub kind: Kind,
    pub payload: usize,
    pub piece: usize,
}

/// What a case runs on. Both sides read the same data and stream. Rattle's stage, output and wires
/// and the `Vec`s that Rust appends to are made once, before the clock starts, at the same sizes;
/// the Rust allocates payloads itself, as its interface asks.
pub struct Bench {
    case: Case,
    records: usize,
    data: Vec<u8>,
    stream: Vec<u8>,
    stage: Vec<u8>,
    output: Vec<u8>,
    other: Vec<u8>,
    appended: Vec<u8>,
    second: Vec<u8>,
}

const PAYLOADS: [usize; 4] = [65536, 4096, 256, 1];
const PIECES: [usize; 4] = [0, 4096, 44, 1];

pub fn cases() -> Vec<Case> {
    let mut all = Vec::new();
    for payload in PAYLOADS {
        all.extend(PIECES.map(|piece| Case { kind: Kind::Receive, payload, piece }));
    }
    for kind in [Kind::Send, Kind::Echo] {
        all.extend(PAYLOADS.map(|payload| Case { kind, payload, piece: 0 }));
    }
    all
}

fn size(bytes: usize) -> String {
    match bytes {
        0 => "whole".into(),
        _ if bytes % 1024 == 0 => format!("{} KiB", bytes / 1024),
        _ => format!("{bytes}"),
    }
}

impl Case {
    pub fn name(&self) -> String {
        let payload = size(self.payload);
        match self.kind {
            Kind::Receive => format!("receive {payload}, pieces {}", size(self.piece)),
            Kind::Send => format!("encode {payload}"),
            Kind::Echo => format!("echo {payload}"),
        }
    }

    /// The largest time ratio that is aimed at.
    pub fn goal(&self) -> Option<f64> {
        match (self.kind, self.payload, self.piece) {
            (Kind::Send, ..) => Some(1.0),
            (Kind::Echo, ..) => None,
            (_, 65536, 0) => Some(0.05),
            (_, 256, 0) => Some(0.5),
            (_, 65536, 4096) => Some(1.0),
            (_, _, 44) => Some(1.5),
            (_, _, 1) => Some(3.0),
            _ => None,
        }
    }

    /// Records of a timed run: at most 1 MiB of payload.
    pub fn records(&self) -> usize {
        (1_048_576 / self.payload).min(16384)
    }

    /// Records of a run that is counted: fewer, since counting is slow.
    pub fn records_counted(&self) -> usize {
        match self.payload {
            65536 => 4,
            4096 => 32,
            _ => 512,
        }
    }
}

fn data(n: usize) -> Vec<u8> {
    (0..n as u32).map(|i| (i.wrapping_mul(7) + i / 251 + 3) as u8).collect()
}

impl Bench {
    pub fn new(case: Case, records: usize) -> Self {
        let echo = case.kind == Kind::Echo;
        let data = data(if echo { case.payload } else { case.payload * records });
        let mut stream = Vec::new();
        for (i, payload) in data.chunks(case.payload).enumerate() {
            let sequence = i as u64 + 1;
            encode_record(RecordType::Data, &rust::INSTANCE, rust::EPOCH, sequence, payload, &mut stream)
                .expect("the record is sound");
        }
        let room = if echo { case.payload + 96 } else { stream.len() };
        let (stage, output, other) = (vec![1; 65536], vec![1; room], vec![1; room]);
        let (mut appended, mut second) = (vec![1; room], vec![1; room]);
        appended.clear();
        second.clear();
        Self { case, records, data, stream, stage, output, other, appended, second }
    }

    fn piece(&self) -> usize {
        if self.case.piece == 0 { self.stream.len() } else { self.case.piece }
    }

    pub fn rattle(&mut self, whole: bool) -> u64 {
        let (piece, times) = (self.piece(), self.records as u32);
        match self.case.kind {
            Kind::Receive => rattle::receive(&self.stream, piece, whole, &mut self.stage),
            Kind::Send => rattle::send(&self.data, self.case.payload, &mut self.output) as u64,
            Kind::Echo => rattle::echo(
                &self.data, times, whole, &mut self.stage, &mut self.output, &mut self.other,
            ),
        }
    }

    pub fn rust(&mut self, whole: bool) -> u64 {
        let (piece, times) = (self.piece(), self.records as u32);
        match self.case.kind {
            Kind::Receive => rust::rust_receive(&self.stream, piece, whole),
            Kind::Send => rust::rust_send(&self.data, self.case.payload, &mut self.output) as u64,
            Kind::Echo => rust::rust_echo(&self.data, times, whole, &mut self.appended, &mut self.second),
        }
    }

    /// Calls of `receive`, of `send`, or round trips.
    pub fn calls(&self) -> usize {
        let record = self.case.payload + 44;
        match (self.case.kind, self.case.piece) {
            (Kind::Receive, 0) | (Kind::Send | Kind::Echo, _) => self.records,
            // A piece ends at each multiple of its size, and at the end of each record.
            (Kind::Receive, piece) => {
                let ends = self.stream.len().div_ceil(piece) + self.records;
                let both = (1..=self.records).filter(|i| i * record % piece == 0 || i * record == self.stream.len());
                ends - both.count()
            }
        }
    }

    /// What both sides have to answer.
    fn expected(&self, whole: bool) -> u64 {
        let mut sums = Sums::default();
        let echoes = if self.case.kind == Kind::Echo { self.records } else { 1 };
        for _ in 0..echoes {
            self.data.chunks(self.case.payload).for_each(|payload| sums.add_payload(payload, whole));
        }
        if self.case.kind == Kind::Send { self.stream.len() as u64 } else { sums.weighted }
    }

    /// Both sides give the expected answers, and write the same bytes.
    pub fn agrees(&mut self) -> bool {
        let sums = [true, false].iter().all(|&whole| {
            let expected = self.expected(whole);
            self.rattle(whole) == expected && self.wrote() && self.rust(whole) == expected && self.wrote()
        });
        sums && (self.case.kind != Kind::Echo
            || self.output[..self.appended.len()] == self.appended && self.other[..self.second.len()] == self.second)
    }

    /// A send has written the stream. Both sides write to the same memory, which is wiped after each.
    fn wrote(&mut self) -> bool {
        if self.case.kind != Kind::Send {
            return true;
        }
        let same = self.output == self.stream;
        self.output.fill(1);
        same
    }
}
