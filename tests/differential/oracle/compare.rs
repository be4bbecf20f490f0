//! Holds a program's answers to the reference's, call by call, while the list is made.

use crate::format::{ANSWERS, FIELDS, FRAME, Frame, HEAD, ROOM, frame_at, name};
use crate::generate::{Block, Generator};
use crate::layers::Layers;
use std::io::{Read, Write};
use std::process::{Child, Command, Stdio};
use std::sync::mpsc::{Receiver, SyncSender, TrySendError, sync_channel};
use std::thread;
use std::time::{Duration, Instant};

/// How many differences are described.
const SHOWN: u64 = 5;
/// Blocks whose answers may be waited for.
const WAITING: usize = 64;
/// How long a program may take for them.
const PATIENCE: Duration = Duration::from_secs(30);

/// Runs `calls` calls of a list on the program; gives the exit status.
pub fn differential(seed: u64, calls: u64, layers: Layers, program: &[String]) -> i32 {
    let mut child = start(program);
    let mut input = child.stdin.take().expect("the program's input");
    let output = child.stdout.take().expect("the program's output");
    let (to_program, blocks) = sync_channel::<Vec<u8>>(4);
    let (to_compare, expected) = sync_channel::<Block>(WAITING);
    let writer = thread::spawn(move || {
        for block in blocks {
            if input.write_all(&block).is_err() {
                break;
            }
        }
    });
    let reader = thread::spawn(move || compare(expected, output));
    let mut sink = |block: Block| {
        let _ = to_program.send(block.calls.clone());
        hand_over(&to_compare, block, &mut child);
    };
    let (reach, made) = Generator::new(seed, calls, layers.clone(), &mut sink).list();
    drop(to_program);
    drop(to_compare);
    let differences = reader.join().expect("the comparison");
    let _ = child.kill();
    let _ = child.wait();
    let _ = writer.join();
    let missing = reach.missing(&layers);
    for line in &missing {
        println!("never reached: {line}");
    }
    println!("differential: {made} calls, {differences} differences");
    (differences != 0 || !missing.is_empty()).into()
}

/// Hands a block to the comparison. A program that gives no answers for too long is ended.
fn hand_over(to_compare: &SyncSender<Block>, block: Block, child: &mut Child) {
    let start = Instant::now();
    let mut block = block;
    while let Err(TrySendError::Full(back)) = to_compare.try_send(block) {
        block = back;
        thread::sleep(Duration::from_millis(1));
        if start.elapsed() > PATIENCE {
            let _ = child.kill();
        }
    }
}

fn start(program: &[String]) -> Child {
    let mut command = Command::new(&program[0]);
    command.args(&program[1..]).stdin(Stdio::piped()).stdout(Stdio::piped());
    command.stderr(Stdio::null()).spawn().unwrap_or_else(|error| {
        println!("differential: cannot run {}: {error}", program[0]);
        std::process::exit(2)
    })
}

/// Counts the calls whose answers differ. Where the program's answers end or make no sense, all
/// calls that are left count.
fn compare(expected: Receiver<Block>, output: impl Read) -> u64 {
    let mut theirs = Answers { output, bytes: Vec::with_capacity(2 * ANSWERS) };
    let (mut number, mut differences, mut lost) = (0, 0, false);
    for block in expected {
        if !lost && theirs.same(&block.answers) {
            theirs.bytes.drain(..block.answers.len());
            number += count(&block);
            continue;
        }
        for (frame, answer) in answers(&block) {
            number += 1;
            let their = if lost { None } else { theirs.next() };
            lost = their.is_none();
            if their.as_deref() == Some(answer) {
                continue;
            }
            differences += 1;
            if differences <= SHOWN {
                describe(number, &frame, answer, their.as_deref().unwrap_or(&[]));
            }
        }
    }
    theirs.fill(1);
    if !lost && !theirs.bytes.is_empty() {
        println!("the program has more answers than there are calls");
        differences += 1;
    }
    differences
}

/// The program's answers, as far as they are read.
struct Answers<R> {
    output: R,
    bytes: Vec<u8>,
}

impl<R: Read> Answers<R> {
    /// Reads until so many bytes are there, or the output ends.
    fn fill(&mut self, n: usize) {
        let more = n.saturating_sub(self.bytes.len());
        let _ = (&mut self.output).take(more as u64).read_to_end(&mut self.bytes);
    }

    /// Reads answers as long as they are the expected ones; whether all of them are.
    fn same(&mut self, expected: &[u8]) -> bool {
        let mut part = [0; 65_536];
        while self.bytes.len() < expected.len() {
            let more = part.len().min(expected.len() - self.bytes.len());
            let got = self.output.read(&mut part[..more]).unwrap_or(0);
            self.bytes.extend(&part[..got]);
            if got == 0 || !expected.starts_with(&self.bytes) {
                return false;
            }
        }
        self.bytes.starts_with(expected)
    }

    /// The next answer, by its own length.
    fn next(&mut self) -> Option<Vec<u8>> {
        self.fill(4);
        let length = u32::from_le_bytes(self.bytes.get(..4)?.try_into().unwrap()) as usize;
        if !(HEAD..=ROOM).contains(&length) {
            return None;
        }
        self.fill(length);
        (self.bytes.len() >= length).then(|| self.bytes.drain(..length).collect())
    }
}

/// The calls of a block.
fn count(block: &Block) -> u64 {
    answers(block).count() as u64
}

/// Each frame of a block with its answer.
fn answers(block: &Block) -> impl Iterator<Item = (Frame<'_>, &[u8])> {
    let (mut at, mut from) = (0, 0);
    std::iter::from_fn(move || {
        let frame = frame_at(&block.calls, at)?;
        let head = block.answers[from..from + 4].try_into().unwrap();
        let answer = &block.answers[from..from + u32::from_le_bytes(head) as usize];
        at += frame.size();
        from += answer.len();
        Some((frame, answer))
    })
}

/// Prints a call and where its answers differ.
fn describe(number: u64, frame: &Frame, ours: &[u8], theirs: &[u8]) {
    let shown = &frame.data[..frame.data.len().min(80)];
    println!(
        "call {number}: {}, a {:#x}, b {:#x}, {} bytes of data: {}",
        name(frame.op),
        frame.a,
        frame.b,
        frame.data.len(),
        hex(shown)
    );
    if theirs.is_empty() {
        println!("  the program gives no answer");
        return;
    }
    for (field, at, n) in FIELDS {
        if ours[at..at + n] != theirs[at..at + n] {
            let (ours, theirs) = (hex(&ours[at..at + n]), hex(&theirs[at..at + n]));
            println!("  {field}: reference {ours}, program {theirs}");
        }
    }
    let differs = |k: &usize| ours.get(*k) != theirs.get(*k);
    if let Some(at) = (HEAD..ours.len().max(theirs.len())).find(differs) {
        let part = |bytes: &[u8]| hex(&bytes[at.min(bytes.len())..(at + FRAME).min(bytes.len())]);
        println!("  from byte {at} on: reference {}, program {}", part(ours), part(theirs));
    }
}

fn hex(bytes: &[u8]) -> String {
    bytes.iter().map(|byte| format!("{byte:02x}")).collect()
}
