//! The oracle: runs lists of calls on the reference, makes such lists, and holds a program to them.

mod compare;
mod format;
mod generate;
mod layers;
mod plant;
mod protocol;
mod reach;
mod refusal;
mod view;
mod world;

use format::{ANSWERS, BLOCK, frame_at};
use generate::{Block, Generator};
use layers::Layers;
use reach::Reach;
use std::io::{Read, Write};
use world::World;

const USAGE: &str = "oracle list SEED CALLS LAYERS > list
oracle fixed LAYERS > list
oracle run < list > answers
oracle stats < list
oracle differential SEED CALLS LAYERS PROGRAM [WORD..]
oracle plant SLIP FOLDER";

fn main() {
    let words: Vec<String> = std::env::args().skip(1).collect();
    let parts: Vec<&str> = words.iter().map(String::as_str).collect();
    let status = match parts[..] {
        ["list", seed, calls, layers] => list(Some((number(seed), number(calls))), layers),
        ["fixed", layers] => list(None, layers),
        ["run"] => run(),
        ["stats"] => stats(),
        ["differential", seed, calls, layers, _, ..] => {
            let layers = named(layers);
            compare::differential(number(seed), number(calls), layers, &words[4..])
        }
        ["plant", slip, folder] => plant::plant(slip, folder).map_or_else(failed, |_| 0),
        _ => failed(USAGE.into()),
    };
    std::process::exit(status);
}

fn failed(message: String) -> i32 {
    eprintln!("{message}");
    2
}

fn number(word: &str) -> u64 {
    word.parse().unwrap_or_else(|_| std::process::exit(failed(format!("not a number: {word}"))))
}

fn named(layers: &str) -> Layers {
    Layers::parse(layers).unwrap_or_else(|message| std::process::exit(failed(message)))
}

/// Writes a list of calls: a fixed one, or one of a seed and so many calls. The fixed one must
/// reach all that its layers have to.
fn list(size: Option<(u64, u64)>, layers: &str) -> i32 {
    let layers = named(layers);
    let mut out = std::io::stdout().lock();
    let mut sink = |block: Block| out.write_all(&block.calls).expect("the list is written");
    let (reach, _) = match size {
        Some((seed, calls)) => Generator::new(seed, calls, layers.clone(), &mut sink).list(),
        None => Generator::new(1, u64::MAX, layers.clone(), &mut sink).fixed(),
    };
    let missing = reach.missing(&layers);
    missing.iter().for_each(|line| eprintln!("never reached: {line}"));
    (size.is_none() && !missing.is_empty()).into()
}

/// Hands over the blocks of standard input.
fn blocks(mut each: impl FnMut(&[u8])) {
    let mut input = std::io::stdin().lock();
    let mut block = vec![0; BLOCK];
    while input.read_exact(&mut block).is_ok() {
        each(&block);
    }
}

/// Answers the calls of standard input.
fn run() -> i32 {
    let mut world = World::new();
    let mut out = std::io::stdout().lock();
    let mut answers = Vec::with_capacity(ANSWERS);
    blocks(|block| {
        world.restart();
        answers.clear();
        let mut at = 0;
        while let Some(frame) = frame_at(block, at) {
            at += frame.size();
            let answer = world.call(&frame);
            answer.put(frame.op, &world.state(frame.op), &mut answers);
        }
        assert!(answers.len() <= ANSWERS);
        out.write_all(&answers).expect("the answers are written");
    });
    0
}

/// Says what the calls of standard input reach.
fn stats() -> i32 {
    let mut world = World::new();
    let mut reach = Reach::default();
    blocks(|block| {
        world.restart();
        let mut at = 0;
        while let Some(frame) = frame_at(block, at) {
            at += frame.size();
            let before = world.before(frame.op);
            let answer = world.call(&frame);
            reach.add(frame.op, before, &answer);
        }
    });
    reach.lines().iter().for_each(|line| println!("{line}"));
    0
}
