//! Runs a program on random captures, and compares what it writes with the listing over the reference.

use crate::capture;
use crate::listing::{Listing, Slip};
use crate::rng::Rng;
use std::io::{Read, Write};
use std::process::{Command, Stdio};

/// What the captures reached: lines of each type, last lines of each refusal, unfinished records.
#[derive(Default)]
struct Reach {
    types: [u64; 10],
    refusals: [u64; 10],
    unfinished: u64,
}

impl Reach {
    fn note(&mut self, text: &str) {
        for line in text.lines().skip(1) {
            let words: Vec<&str> = line.split(' ').collect();
            let figure = |i: usize| words[i].parse::<usize>().unwrap_or(0);
            if words[0] == "end" {
                self.refusals[figure(2)] += 1;
                self.unfinished += u64::from(figure(3) > 0);
            } else {
                self.types[figure(1)] += 1;
            }
        }
    }

    fn missing(&self) -> bool {
        self.types[1..].contains(&0) || self.refusals.contains(&0) || self.unfinished == 0
    }
}

/// The reference's listing of a capture, which is pushed in pieces of random lengths.
fn expected(rng: &mut Rng, bytes: &[u8]) -> std::io::Result<Vec<u8>> {
    let mut out = Vec::new();
    let mut listing = Listing::new(Slip::None, &mut out)?;
    let mut rest = bytes;
    while !rest.is_empty() {
        let (piece, after) = rest.split_at(piece(rng, rest.len()));
        listing.feed(piece, &mut out)?;
        rest = after;
    }
    listing.end(&mut out)?;
    Ok(out)
}

fn piece(rng: &mut Rng, left: usize) -> usize {
    let most = rng.pick(&[1, 7, 44, 300, 5000, 70000]);
    (1 + rng.below(most)).min(left)
}

/// What the program writes, where its input comes in a few writes.
fn answered(rng: &mut Rng, bytes: &[u8], words: &[String]) -> std::io::Result<Vec<u8>> {
    let mut child = Command::new(&words[0])
        .args(&words[1..])
        .stdin(Stdio::piped())
        .stdout(Stdio::piped())
        .spawn()?;
    if let Some(mut input) = child.stdin.take() {
        let mut rest = bytes;
        while !rest.is_empty() {
            let (piece, after) = rest.split_at((1 + rng.below(60000)).min(rest.len()));
            // A program that has refused its input may be gone.
            if input.write_all(piece).is_err() {
                break;
            }
            rest = after;
        }
    }
    let mut out = Vec::new();
    if let Some(mut output) = child.stdout.take() {
        output.read_to_end(&mut out)?;
    }
    child.wait()?;
    Ok(out)
}

pub fn compare(seed: u64, captures: usize, words: &[String]) -> Result<(), String> {
    let (mut reach, mut differences, mut lines, mut size) = (Reach::default(), 0, 0, 0);
    for number in 0..captures {
        // Each capture follows from the seed and its number, whatever the program does.
        let mut rng = Rng::new(seed.wrapping_add((number as u64) << 32));
        let bytes = capture::random(&mut rng);
        let want = expected(&mut rng, &bytes).map_err(|error| error.to_string())?;
        let got = answered(&mut rng, &bytes, words).map_err(|error| error.to_string())?;
        let text = String::from_utf8_lossy(&want);
        reach.note(&text);
        lines += text.lines().count();
        size += bytes.len();
        if want != got {
            differences += 1;
            if differences == 1 {
                let other = String::from_utf8_lossy(&got);
                println!("capture {number}, seed {seed}: expected\n{text}got\n{other}");
            }
        }
    }
    println!("{captures} captures, {size} bytes, {lines} lines: {differences} differences");
    println!("lines of types 1 to 9: {:?}", &reach.types[1..]);
    println!("last lines with refusals 0 to 9: {:?}; with an unfinished record: {}", reach.refusals, reach.unfinished);
    match (differences, captures >= 10000 && reach.missing()) {
        (0, false) => Ok(()),
        (0, true) => Err("listing: a type, a refusal or an unfinished record was not reached".into()),
        _ => Err("listing: the program and the reference differ".into()),
    }
}
