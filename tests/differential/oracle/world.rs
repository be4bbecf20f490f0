//! Runs one call on the reference, with what 01 adds to it: stage, output position, 21 and 22.

use crate::format::{AREA, Answer, Frame, STAGE, op, put_identity, put_parser, u64_at};
use crate::protocol::nvxs::*;
use crate::protocol::*;
use crate::refusal::{Refusal, of_outer, of_record, of_session};
use crate::view::ParserView;

/// The areas of the memory: a stage for each of guest, host and bare parser, and the output.
const GUEST: usize = 0;
const HOST: usize = 1;
const PARSER: usize = 2;
const OUTPUT: usize = 3;

/// What the calls of a block act on.
pub struct World {
    pub guest: GuestSession,
    pub host: HostSession,
    pub parser: RecordParser,
    memory: Vec<u8>,
}

impl World {
    /// The world at the start of a block.
    pub fn new() -> Self {
        Self {
            guest: GuestSession::new(),
            host: HostSession::new(),
            parser: RecordParser::new(),
            memory: vec![0; 4 * AREA],
        }
    }

    /// The world at the start of the next block.
    pub fn restart(&mut self) {
        self.fresh();
        self.memory.fill(0);
    }

    /// Fresh parser and sessions. The memory keeps its contents.
    fn fresh(&mut self) {
        self.guest = GuestSession::new();
        self.host = HostSession::new();
        self.parser = RecordParser::new();
    }

    /// Runs one call.
    pub fn call(&mut self, frame: &Frame) -> Answer {
        match frame.op {
            op::FRESH => {
                self.fresh();
                Answer::default()
            }
            10..=19 | op::SET_GUEST => self.guest_call(frame),
            20..=29 | op::SET_HOST => self.host_call(frame),
            30..=39 => self.parser_call(frame),
            op::ENCODE_RECORD | op::TYPE_ASKS | op::ERROR_ASKS => self.record_call(frame),
            41..=46 => self.outer_call(frame),
            op::SHOW => self.show(frame),
            _ => Answer::default(),
        }
    }

    /// The state that an answer shows: 192 bytes for a session, 120 for a parser.
    pub fn state(&self, number: u8) -> Vec<u8> {
        let mut out = Vec::new();
        match number {
            10..=19 | op::SET_GUEST => {
                let v = self.guest.view();
                let limits = [v.window.into(), v.outstanding.into()];
                let sequences = [v.receive_sequence, v.send_sequence];
                put_session(v.state, &v.parser, v.identity, sequences, limits, &mut out);
            }
            20..=29 | op::SET_HOST => {
                let v = self.host.view();
                let sequences = [v.receive_sequence, v.send_sequence];
                put_session(v.state, &v.parser, v.identity, sequences, [0, 0], &mut out);
            }
            30..=39 => put_parser(&self.parser.view(), &mut out),
            _ => {}
        }
        out
    }

    /// The state's number that an operation meets, and whether its parser has latched an error.
    pub fn before(&self, number: u8) -> (u8, bool) {
        match number {
            10..=19 => (self.guest.view().state, false),
            20..=29 => (self.host.view().state, false),
            30..=39 => (0, self.parser.view().error.is_some()),
            _ => (0, false),
        }
    }

    fn guest_call(&mut self, frame: &Frame) -> Answer {
        let output = &mut self.memory[OUTPUT * AREA..];
        let guest = &mut self.guest;
        match frame.op {
            op::GUEST_ATTACH => fits(guest, output, frame, |g, o| g.attach(o).map(|_| 0), of_session),
            op::GUEST_RECEIVE => self.guest_receive(frame),
            op::ACKNOWLEDGE => {
                let run = |g: &mut GuestSession, o: &mut _| g.acknowledge(frame.value(), o).map(|_| 0);
                fits(guest, output, frame, run, of_session)
            }
            op::GUEST_SEND => {
                let run = |g: &mut GuestSession, o: &mut _| g.send(frame.data, o);
                fits(guest, output, frame, run, of_session)
            }
            op::CREDIT => {
                let run = |g: &mut GuestSession, o: &mut _| g.credit(frame.value(), o).map(|_| 0);
                fits(guest, output, frame, run, of_session)
            }
            op::GUEST_DISCONNECT => ended(guest.disconnect()),
            op::GUEST_ASKS => Answer {
                event: guest.state() as u8,
                identity: guest.identity(),
                window: guest.window(),
                count: guest.outstanding().into(),
                next: guest.needed() as u64,
                ..Answer::default()
            },
            op::SET_GUEST => {
                guest.set_sequences(frame.a, frame.b);
                Answer::default()
            }
            _ => Answer::default(),
        }
    }

    fn guest_receive(&mut self, frame: &Frame) -> Answer {
        if frame.a < STAGE {
            return Answer::refused(Refusal::bare(21));
        }
        let before = self.guest.view().parser;
        let result = self.guest.receive(frame.data).map_err(|error| of_session(&error));
        let after = self.guest.view().parser;
        let refused = result.as_ref().map_or_else(|refusal| refusal.number, |_| 0);
        let stage = &mut self.memory[GUEST * AREA..];
        let place = staged(stage, &before, &after, frame.data, refused);
        let (count, event) = match result {
            Err(refusal) => return Answer::refused(refusal),
            Ok((count, event)) => (count as u64, event),
        };
        let base = Answer { count, ..Answer::default() };
        match event {
            None => base,
            Some(GuestEvent::Reset(id)) => Answer { event: 1, identity: Some(id), ..base },
            Some(GuestEvent::Data(payload)) => Answer { event: 2, place, payload, ..base },
        }
    }

    fn host_call(&mut self, frame: &Frame) -> Answer {
        let output = &mut self.memory[OUTPUT * AREA..];
        let host = &mut self.host;
        match frame.op {
            op::HOST_ATTACH => {
                let Ok(capability) = <&[u8; 32]>::try_from(frame.data) else {
                    return Answer::default();
                };
                let run = |h: &mut HostSession, o: &mut _| h.attach(capability, o).map(|_| 0);
                fits(host, output, frame, run, of_session)
            }
            op::HOST_RECEIVE => self.host_receive(frame),
            op::HOST_SEND => {
                let run = |h: &mut HostSession, o: &mut _| h.send(frame.data, o);
                fits(host, output, frame, run, of_session)
            }
            op::HOST_DISCONNECT => ended(host.disconnect()),
            op::HOST_ASKS => Answer {
                event: host.state() as u8,
                identity: host.identity(),
                next: host.needed() as u64,
                ..Answer::default()
            },
            op::SET_HOST => {
                host.set_sequences(frame.a, frame.b);
                Answer::default()
            }
            _ => Answer::default(),
        }
    }

    fn host_receive(&mut self, frame: &Frame) -> Answer {
        if frame.a < STAGE {
            return Answer::refused(Refusal::bare(21));
        }
        let before = self.host.view().parser;
        let result = self.host.receive(frame.data).map_err(|error| of_session(&error));
        let after = self.host.view().parser;
        let refused = result.as_ref().map_or_else(|refusal| refusal.number, |_| 0);
        let stage = &mut self.memory[HOST * AREA..];
        let place = staged(stage, &before, &after, frame.data, refused);
        let (count, event) = match result {
            Err(refusal) => return Answer::refused(refusal),
            Ok((count, event)) => (count as u64, event),
        };
        let base = Answer { count, ..Answer::default() };
        match event {
            None => base,
            Some(HostEvent::Wait) => Answer { event: 3, ..base },
            Some(HostEvent::Attached(id)) => Answer { event: 4, identity: Some(id), ..base },
            Some(HostEvent::Rejected(_)) => Answer { event: 5, ..base },
            Some(HostEvent::Data(payload)) => Answer { event: 6, place, payload, ..base },
            Some(HostEvent::Reset(id)) => Answer { event: 7, identity: Some(id), ..base },
        }
    }

    fn parser_call(&mut self, frame: &Frame) -> Answer {
        match frame.op {
            op::PUSH => self.push(frame),
            op::NEW_PARSER => {
                self.parser = RecordParser::new();
                Answer::default()
            }
            op::PARSER_ASKS => Answer {
                count: self.parser.buffered() as u64,
                next: self.parser.needed() as u64,
                ..Answer::default()
            },
            _ => Answer::default(),
        }
    }

    fn push(&mut self, frame: &Frame) -> Answer {
        if frame.a < STAGE {
            return Answer::refused(Refusal::bare(21));
        }
        let before = self.parser.view();
        let result = self.parser.push(frame.data).map_err(|error| of_record(&error));
        let after = self.parser.view();
        let refused = result.as_ref().map_or_else(|refusal| refusal.number, |_| 0);
        let stage = &mut self.memory[PARSER * AREA..];
        let place = staged(stage, &before, &after, frame.data, refused);
        match result {
            Err(refusal) => Answer::refused(refusal),
            Ok((count, None)) => Answer { count: count as u64, ..Answer::default() },
            Ok((count, Some(record))) => Answer {
                count: count as u64,
                event: 8,
                place,
                record_type: record.record_type().code(),
                next: record.sequence(),
                identity: Some(Identity {
                    instance_id: record.instance_id(),
                    epoch: record.epoch(),
                }),
                window: record.window(),
                credit: record.credit(),
                error: record.error_code().map(ErrorCode::code),
                payload: record.into_payload(),
                ..Answer::default()
            },
        }
    }

    fn record_call(&mut self, frame: &Frame) -> Answer {
        let output = &mut self.memory[OUTPUT * AREA..];
        match frame.op {
            op::ENCODE_RECORD => {
                let Some((code, id, sequence, payload)) = fields(frame.data) else {
                    return Answer::default();
                };
                let Some(ty) = RecordType::from_code(code) else {
                    return Answer::default();
                };
                let run = |_: &mut (), o: &mut _| {
                    encode_record(ty, &id.instance_id, id.epoch, sequence, payload, o).map(|_| 0)
                };
                fits(&mut (), output, frame, run, of_record)
            }
            op::TYPE_ASKS => match RecordType::from_code(frame.a as u8) {
                None => Answer::default(),
                Some(ty) => Answer {
                    event: 1,
                    record_type: ty.code(),
                    count: ty.is_bootstrap().into(),
                    next: ty.allows_length(frame.b as usize).into(),
                    ..Answer::default()
                },
            },
            _ => Answer {
                error: ErrorCode::from_code(frame.value()).map(ErrorCode::code),
                ..Answer::default()
            },
        }
    }

    fn outer_call(&mut self, frame: &Frame) -> Answer {
        let output = &mut self.memory[OUTPUT * AREA..];
        match frame.op {
            op::ENCODE_OUTER => {
                let Some((code, id, sequence, payload)) = fields(frame.data) else {
                    return Answer::default();
                };
                let run = |_: &mut (), o: &mut Vec<u8>| {
                    *o = encode_outer(code, &id.instance_id, id.epoch, sequence, payload)?;
                    Ok(0)
                };
                fits(&mut (), output, frame, run, of_outer)
            }
            op::DECODE_OUTER => match frame.data.try_into() {
                Err(_) => Answer::default(),
                Ok(header) => decoded_header(decode_outer_header(header)),
            },
            op::ENCODE_ACK => encoded(encode_ack_payload(frame.value())),
            op::DECODE_ACK => decoded(decode_ack_payload(frame.data)),
            op::ENCODE_CREDIT => encoded(encode_credit_payload(frame.value())),
            _ => decoded(decode_credit_payload(frame.data)),
        }
    }

    /// A part of the memory.
    fn show(&self, frame: &Frame) -> Answer {
        let (from, count) = (frame.a as usize, frame.b as usize);
        if frame.b > AREA as u64 || frame.a > (self.memory.len() - count) as u64 {
            return Answer::default();
        }
        Answer { payload: self.memory[from..from + count].to_vec(), ..Answer::default() }
    }
}

/// 192 bytes: the state, the parser, the identity with its mark, sequences, window, outstanding.
fn put_session(
    state: u8,
    parser: &ParserView,
    identity: Option<Identity>,
    sequences: [u64; 2],
    limits: [u64; 2],
    out: &mut Vec<u8>,
) {
    out.extend(u64::from(state).to_le_bytes());
    put_parser(parser, out);
    out.extend(u64::from(identity.is_some()).to_le_bytes());
    put_identity(identity, out);
    for number in [sequences, limits].concat() {
        out.extend(number.to_le_bytes());
    }
}

/// What 01 adds to push: the bytes that the stage gets, and the place of a whole record's payload
/// (0: none, 1: in the piece, 2: in the stage).
fn staged(
    stage: &mut [u8],
    before: &ParserView,
    after: &ParserView,
    piece: &[u8],
    refused: u8,
) -> u8 {
    if before.error.is_some() || (1..=6).contains(&refused) || refused == 20 {
        return 0;
    }
    let of_header = if before.held { 0 } else { 44 - before.header_len };
    if piece.len() < of_header {
        return 0;
    }
    let length = u32::from_le_bytes(after.header[40..44].try_into().unwrap()) as usize;
    let have = before.payload_len;
    let take = (length - have).min(piece.len() - of_header);
    if have == 0 && take == length {
        return 1;
    }
    stage[have..have + take].copy_from_slice(&piece[of_header..of_header + take]);
    if have + take == length { 2 } else { 0 }
}

/// Runs an operation that appends to its output. What does not fit the lent output at its
/// position is 22, and nothing is changed; after another refusal the session is as the reference
/// left it.
fn fits<S: Clone, E>(
    session: &mut S,
    output: &mut [u8],
    frame: &Frame,
    run: impl FnOnce(&mut S, &mut Vec<u8>) -> Result<usize, E>,
    of: impl Fn(&E) -> Refusal,
) -> Answer {
    let mut copy = session.clone();
    let mut written = Vec::new();
    let result = run(&mut copy, &mut written);
    let count = match result {
        Ok(count) => count as u64,
        Err(error) => {
            assert!(written.is_empty());
            *session = copy;
            return Answer::refused(of(&error));
        }
    };
    let (len, at) = (frame.output_len(), frame.b);
    if at > len || len - at < written.len() as u64 {
        return Answer::refused(Refusal::bare(22));
    }
    *session = copy;
    let next = at as usize + written.len();
    output[at as usize..next].copy_from_slice(&written);
    Answer { count, next: next as u64, written, ..Answer::default() }
}

/// Type, instance and epoch, sequence, payload of an encoder's data, if it is long enough.
fn fields(data: &[u8]) -> Option<(u8, Identity, u64, &[u8])> {
    if data.len() < 33 {
        return None;
    }
    let instance_id = data[1..17].try_into().unwrap();
    let identity = Identity { instance_id, epoch: u64_at(data, 17) };
    Some((data[0], identity, u64_at(data, 25), &data[33..]))
}

fn ended(result: Result<(), SessionError>) -> Answer {
    result.map_or_else(|error| Answer::refused(of_session(&error)), |_| Answer::default())
}

fn decoded_header(result: Result<OuterHeader, ProtocolError>) -> Answer {
    match result {
        Err(error) => Answer::refused(of_outer(&error)),
        Ok(header) => Answer {
            record_type: header.record_type,
            identity: Some(Identity { instance_id: header.instance_id, epoch: header.epoch }),
            next: header.sequence,
            count: header.length as u64,
            ..Answer::default()
        },
    }
}

fn encoded(result: Result<[u8; 4], ProtocolError>) -> Answer {
    match result {
        Err(error) => Answer::refused(of_outer(&error)),
        Ok(bytes) => Answer { window: Some(u32::from_le_bytes(bytes)), ..Answer::default() },
    }
}

fn decoded(result: Result<u32, ProtocolError>) -> Answer {
    match result {
        Err(error) => Answer::refused(of_outer(&error)),
        Ok(value) => Answer { count: value.into(), ..Answer::default() },
    }
}
