//! Times notifications of `livevec serve`: `noted LIVEVEC FIFO QUERIES` serves one session from the FIFO beside a subscriber of those queries. It makes 100
//! writes, each some time after the note of the one before was read, and prints how many nanoseconds lie between a line and its note: the median and
//! the 99th.
#![allow(dead_code)]
use std::fs::{File, OpenOptions};
use std::io::{Read, Write};
use std::process::{Command, Stdio};
use std::time::{Duration, Instant};

include!("peers/dice.rs");

const PUSHED: u64 = 20_000;

// Reads until what a subscriber was told ends with the notes of an edit.
fn read_note(told: &mut File, edit: u64, text: &mut Vec<u8>) {
    let first = format!("at {edit} ");
    loop {
        let had = text.len();
        told.read_to_end(text).unwrap();
        if text.len() > had {
            let last = text[..text.len() - 1].rsplit(|byte| *byte == b'\n').next().unwrap();
            if last.starts_with(first.as_bytes()) {
                text.clear();
                return;
            }
        }
        std::thread::sleep(Duration::from_micros(10));
    }
}

fn main() {
    let words: Vec<String> = std::env::args().skip(1).collect();
    let [livevec, fifo, queries] = &words[..] else { panic!("noted LIVEVEC FIFO QUERIES") };
    let mut served = Command::new(livevec).args(["serve", "--watch", queries, fifo]).stdout(Stdio::null()).spawn().unwrap();
    let mut session = OpenOptions::new().write(true).open(fifo).unwrap();
    session.write_all("push 1\n".repeat(PUSHED as usize).as_bytes()).unwrap();
    let mut told = File::open(format!("{queries}.out")).unwrap();
    let (mut dice, mut text, mut took) = (Dice(1), Vec::new(), Vec::new());
    read_note(&mut told, PUSHED, &mut text);
    for write in 1..=100 {
        std::thread::sleep(Duration::from_micros(dice.below(5000)));
        let line = format!("write {} {}\n", dice.below(PUSHED), 1 + write);
        let began = Instant::now();
        session.write_all(line.as_bytes()).unwrap();
        read_note(&mut told, PUSHED + write, &mut text);
        took.push(began.elapsed().as_nanos());
    }
    drop(session);
    assert!(served.wait().unwrap().success());
    took.sort();
    println!("median: {} 1\n99th: {} 1", took[50], took[98]);
}
