//! Makes lists of calls. The reference runs each call as it is made, so that the next call can
//! fit the state, and the answers come with the list.

mod guest;
mod host;
mod marked;
mod outer;
mod parser;
mod record;
mod records;
mod rng;

use crate::format::{ANSWERS, AREA, Answer, BLOCK, FRAME, Frame, ROOM, op};
use crate::layers::{Layer, Layers};
use crate::reach::Reach;
use crate::world::World;
use rng::Rng;

/// Numbers near a limit of 01.
pub const NEAR: [u64; 16] = [
    0,
    1,
    2,
    7,
    8,
    255,
    256,
    65_535,
    65_536,
    65_537,
    4_194_313,
    4_194_314,
    4_194_315,
    u32::MAX as u64,
    u64::MAX - 1,
    u64::MAX,
];

/// From this many calls on a list has each way to cut a short stream into three pieces, below it
/// each way into two.
const THREE_PIECES: u64 = 200_000;

/// Which short streams are cut in every place, and into how many pieces.
#[derive(Clone, Copy, PartialEq)]
enum Cuts {
    /// Some streams, into two pieces.
    Few,
    /// All streams, into two.
    Two,
    /// All streams, into three.
    Three,
}

/// A block of calls with the reference's answers.
pub struct Block {
    pub calls: Vec<u8>,
    pub answers: Vec<u8>,
}

/// A list in the making.
pub struct Generator<'s> {
    pub rng: Rng,
    pub world: World,
    pub layers: Layers,
    pub reach: Reach,
    pub calls: u64,
    limit: u64,
    block: Block,
    sink: &'s mut dyn FnMut(Block),
}

impl<'s> Generator<'s> {
    pub fn new(seed: u64, limit: u64, layers: Layers, sink: &'s mut dyn FnMut(Block)) -> Self {
        Self {
            rng: Rng::new(seed),
            world: World::new(),
            layers,
            reach: Reach::default(),
            calls: 0,
            limit,
            block: Block { calls: Vec::new(), answers: Vec::new() },
            sink,
        }
    }

    /// A list of exactly `limit` calls: first the aimed ones and the cuts, then random ones.
    pub fn list(mut self) -> (Reach, u64) {
        self.aimed();
        self.cuts(if self.limit < THREE_PIECES { Cuts::Two } else { Cuts::Three });
        while !self.done() {
            self.random();
        }
        self.flush();
        (self.reach, self.calls)
    }

    /// The fixed list: the aimed calls, short streams cut in two, some random ones.
    pub fn fixed(mut self) -> (Reach, u64) {
        self.aimed();
        self.cuts(Cuts::Few);
        let end = self.calls + 400;
        while self.calls < end {
            self.random();
        }
        self.flush();
        (self.reach, self.calls)
    }

    fn aimed(&mut self) {
        for layer in self.layers.clone().iter() {
            match layer {
                Layer::Outer => outer::aimed(self),
                Layer::Record => {
                    marked::encoder(self);
                    record::aimed(self);
                }
                Layer::Parser => {
                    marked::parser(self);
                    parser::aimed(self);
                }
                Layer::Guest => {
                    marked::guest(self);
                    guest::aimed(self);
                }
                Layer::Host => host::aimed(self),
            }
        }
    }

    /// Every way to cut short streams.
    fn cuts(&mut self, cuts: Cuts) {
        if self.layers.on(Layer::Parser) {
            parser::cuts(self, cuts);
        }
        if self.layers.on(Layer::Guest) {
            guest::cuts(self, cuts == Cuts::Three);
        }
        if self.layers.on(Layer::Host) {
            host::cuts(self, cuts == Cuts::Three);
        }
    }

    /// A scene of one layer; sessions more often than codecs.
    fn random(&mut self) {
        let turn = [0, 1, 2, 2, 3, 3, 3, 3, 4, 4, 4][self.rng.below(11)];
        match turn {
            0 if self.layers.on(Layer::Outer) => outer::random(self),
            1 if self.layers.on(Layer::Record) => record::random(self),
            2 if self.layers.on(Layer::Parser) => parser::random(self),
            3 if self.layers.on(Layer::Guest) => guest::random(self),
            4 if self.layers.on(Layer::Host) => host::random(self),
            _ => {}
        }
    }

    /// Whether the list has all its calls.
    pub fn done(&self) -> bool {
        self.calls == self.limit
    }

    /// Starts a scene on fresh sessions, in a block that has room for so many bytes of calls and
    /// of answers.
    pub fn scene(&mut self, calls: usize, answers: usize) {
        self.make_room(calls, answers);
        self.call(op::FRESH, 0, 0, &[]);
    }

    /// Adds one call and gives the reference's answer. Past the limit nothing is added.
    pub fn call(&mut self, op: u8, a: u64, b: u64, data: &[u8]) -> Answer {
        if self.done() {
            return Answer::default();
        }
        assert!(FRAME + data.len() <= BLOCK);
        self.make_room(FRAME + data.len(), ROOM);
        let frame = Frame { op, a, b, data };
        frame.put(&mut self.block.calls);
        self.calls += 1;
        let before = self.world.before(op);
        let answer = self.world.call(&frame);
        self.reach.add(op, before, &answer);
        answer.put(op, &self.world.state(op), &mut self.block.answers);
        answer
    }

    /// A call that writes: a value, the output's length, the position.
    pub fn write(&mut self, op: u8, value: u32, space: Space, data: &[u8]) -> Answer {
        self.call(op, u64::from(value) | space.len << 32, space.at, data)
    }

    /// Shows a part of the memory.
    pub fn show(&mut self, from: usize, count: usize) {
        self.call(op::SHOW, from as u64, count as u64, &[]);
    }

    /// Shows the output around the bytes that a call wrote.
    pub fn show_written(&mut self, answer: &Answer) {
        let next = answer.next as usize;
        let from = next.saturating_sub(answer.written.len() + 8);
        let to = (next + 8).min(AREA);
        self.show(3 * AREA + from, to - from);
    }

    fn make_room(&mut self, calls: usize, answers: usize) {
        let fits = self.block.calls.len() + calls <= BLOCK
            && self.block.answers.len() + answers.max(ROOM) <= ANSWERS;
        if !fits {
            self.flush();
        }
    }

    /// Ends the block. The next one starts in a new world.
    fn flush(&mut self) {
        if self.block.calls.is_empty() {
            return;
        }
        self.world.restart();
        let empty = Block { calls: Vec::with_capacity(BLOCK), answers: Vec::with_capacity(ANSWERS) };
        let mut block = std::mem::replace(&mut self.block, empty);
        block.calls.resize(BLOCK, 0);
        (self.sink)(block);
    }

    /// An output: most often one with room, else short, or a position past the end.
    pub fn space(&mut self) -> Space {
        let g = &mut self.rng;
        let full = AREA as u64;
        match g.below(24) {
            0 => Space { len: 43 + g.below(6) as u64, at: 0 },
            1 => Space { len: g.below(140) as u64, at: g.below(160) as u64 },
            2 => Space { len: full, at: g.below(AREA + 3) as u64 },
            3 => Space { len: full, at: g.pick(&NEAR) },
            _ => Space { len: full, at: g.below(20) as u64 },
        }
    }
}

/// An output's length and the position in it.
#[derive(Clone, Copy)]
pub struct Space {
    pub len: u64,
    pub at: u64,
}

impl Space {
    /// The whole output, from its start.
    pub const ALL: Space = Space { len: AREA as u64, at: 0 };

    /// Outputs at the limit of a record of `n` bytes: too short first, then exact ones.
    pub fn limits(n: u64) -> [Space; 9] {
        [
            Space { len: n - 1, at: 0 },
            Space { len: n + 6, at: 7 },
            Space { len: n, at: n },
            Space { len: n, at: n + 1 },
            Space { len: n, at: u64::MAX },
            Space { len: 0, at: 0 },
            Space { len: 43, at: 0 },
            Space { len: n, at: 0 },
            Space { len: n + 7, at: 7 },
        ]
    }
}
