//! A listing over the reference's parser, captures for it, and the comparison of a program with it.

mod capture;
mod compare;
mod listing;
mod protocol;
#[allow(dead_code)]
mod refusal;
#[allow(dead_code)]
mod rng;

use listing::Slip;

const USAGE: &str = "oracle list [SLIP] < capture > listing     SLIP: reset, credit, offset or unfinished
oracle capture PAYLOAD BYTES > capture
oracle compare SEED CAPTURES PROGRAM [WORD..]";

fn main() {
    let words: Vec<String> = std::env::args().skip(1).collect();
    let parts: Vec<&str> = words.iter().map(String::as_str).collect();
    let done = match parts[..] {
        ["list"] => listing::list(Slip::None),
        ["list", slip] => listing::list(Slip::named(slip)),
        ["capture", payload, bytes] => capture::write(number(payload), number(bytes)),
        ["compare", seed, captures, _, ..] => {
            compare::compare(number(seed) as u64, number(captures), &words[3..])
        }
        _ => Err(USAGE.into()),
    };
    if let Err(message) = done {
        eprintln!("{message}");
        std::process::exit(1);
    }
}

fn number(word: &str) -> usize {
    word.parse().unwrap_or_else(|_| {
        eprintln!("not a number: {word}");
        std::process::exit(2)
    })
}
