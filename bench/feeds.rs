//! Writes to standard output what the programs are fed with; the same words give the same lines.
//! `lines N`: N updates and queries. `session SEED`: what a client of `serve` sends. `queries N PUSHES WRITES`: N continuous queries of everything,
//! and so many edits. `ranges KIND`: a million pushes and 300 reductions. `scan`: a million pushes and a scan of all. `pairs KIND N COUNT`: N
//! pushes, then so many writes, each with a reduction of all. `watch-ranges`: 64 queries of random kinds and ranges among the elements that a session
//! pushes, the first of them a sum of all. `watch-sums`: 64 that nearly every write changes.
use std::io::{BufWriter, Write};

include!("peers/dice.rs");

const PUSHED: u64 = 20_000;

fn pushes(count: u64, dice: &mut Dice, out: &mut impl Write) {
    for _ in 0..count {
        writeln!(out, "push {}", dice.element()).unwrap();
    }
}

fn writes(among: u64, count: u64, dice: &mut Dice, out: &mut impl Write) {
    for _ in 0..count {
        writeln!(out, "write {} {}", dice.below(among), dice.element()).unwrap();
    }
}

fn lines(count: u64, dice: &mut Dice, out: &mut impl Write) {
    let mut size = 0;
    for _ in 0..count {
        let (roll, value) = (dice.below(16), dice.element());
        match roll {
            0..=6 if size < 1_000_000 => {
                size += 1;
                writeln!(out, "push {value}")
            }
            7 if size > 0 => {
                size -= 1;
                writeln!(out, "pop")
            }
            8..=11 if size > 0 => writeln!(out, "write {} {value}", dice.below(size)),
            12 => writeln!(out, "size"),
            13 if size > 64 => {
                let lo = dice.below(size - 64);
                writeln!(out, "reduce sum {lo} {}", lo + 64)
            }
            _ => writeln!(out, "get {}", dice.below(size + 1)),
        }
        .unwrap();
    }
}

// Pushes first, then writes among the elements that any one session has pushed; every sixteenth line asks for the best run of a range of them.
fn session(dice: &mut Dice, out: &mut impl Write) {
    pushes(PUSHED, dice, out);
    for line in PUSHED..200_000 {
        if line % 16 == 0 {
            let lo = dice.below(PUSHED / 2);
            writeln!(out, "reduce best {lo} {}", lo + PUSHED / 2).unwrap();
        } else {
            writes(PUSHED, 1, dice, out);
        }
    }
}

// Queries of random ranges, or of nearly all elements.
fn watches(is_wide: bool, dice: &mut Dice, out: &mut impl Write) {
    for number in 0..64 {
        let (kind, lo, hi) = match (is_wide, number) {
            (true, _) => (["sum", "affine"][number % 2], dice.below(PUSHED / 100), PUSHED - dice.below(PUSHED / 100)),
            (false, 0) => ("sum", 0, PUSHED),
            (false, _) => (KINDS[number % 6], dice.below(PUSHED), dice.below(PUSHED)),
        };
        writeln!(out, "watch name_{number} {kind} {} {}", lo.min(hi), lo.max(hi)).unwrap();
    }
}

fn main() {
    let out = &mut BufWriter::with_capacity(1 << 16, std::io::stdout().lock());
    let words: Vec<String> = std::env::args().skip(1).collect();
    let number = |at: usize| words[at].parse().expect("a number");
    let dice = &mut Dice(if words[0] == "session" { number(1) } else { 1 });
    match words[0].as_str() {
        "lines" => lines(number(1), dice, out),
        "session" => session(dice, out),
        "queries" => {
            (0..number(1)).for_each(|n| writeln!(out, "watch w{n} {} 0 1048568", KINDS[n as usize % 6]).unwrap());
            pushes(number(2), dice, out);
            writes(number(2), number(3), dice, out);
        }
        "ranges" => {
            pushes(1_000_000, dice, out);
            for _ in 0..300 {
                let (a, b) = (dice.below(1_000_001), dice.below(1_000_001));
                writeln!(out, "reduce {} {} {}", words[1], a.min(b), a.max(b)).unwrap();
            }
        }
        "scan" => {
            pushes(1_000_000, dice, out);
            writeln!(out, "inc sum 0 1000000").unwrap();
        }
        "pairs" => {
            let among = number(2);
            pushes(among, dice, out);
            for _ in 0..number(3) {
                writes(among, 1, dice, out);
                writeln!(out, "reduce {} 0 {among}", words[1]).unwrap();
            }
        }
        "watch-ranges" => watches(false, dice, out),
        "watch-sums" => watches(true, dice, out),
        other => panic!("{other}: no such feed"),
    }
    out.flush().unwrap();
}
