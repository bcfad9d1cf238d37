//! Plain Rust at the work that `board/` times: a `Vec` of 16-bit elements in a `Mutex`, for so many threads.
//! Each line that it prints is a label, nanoseconds, and how many edits or reductions each of the threads made in them.
#![allow(dead_code)]
use std::hint::black_box;
use std::sync::Mutex;
use std::thread;
use std::time::Instant;

include!("peers/draws.rs");

// How many edits or reductions a thread makes.
const EDITS: u32 = 200_000;
const SUMS: u32 = 20_000;

// So many elements are pushed before they are popped again.
const RUN: u32 = 4_000;

// What threads share: elements, and how many edits were made.
struct Shared {
    elements: Vec<i16>,
    edits: u64,
}

// So many elements that fit 16 bits.
fn filled(count: u32) -> Shared {
    let mut elements = Vec::with_capacity(4_088);
    elements.extend((0..count).map(|k| (k % 1000) as i16));
    Shared { elements, edits: 0 }
}

// The least nanoseconds of several tries, in which so many threads do the work at the same time.
fn show_by(work: &str, threads: u32, turns: u32, count: u32, run: impl Fn(&Mutex<Shared>, u32) -> u64 + Sync) {
    let time = |_| {
        let (lock, run) = (Mutex::new(filled(count)), &run);
        let start = Instant::now();
        thread::scope(|scope| {
            for number in 0..threads {
                let lock = &lock;
                scope.spawn(move || black_box(run(lock, number)));
            }
        });
        start.elapsed().as_nanos()
    };
    println!("mutex {work} by {threads}: {} {turns}", (0..5).map(time).min().unwrap());
}

fn push(lock: &Mutex<Shared>, run: u32) -> u64 {
    let mut last = 0;
    for k in 0..EDITS {
        let pushes = (k / run) % 2 == 0;
        let mut shared = lock.lock().unwrap();
        shared.edits += 1;
        if pushes {
            shared.elements.push((k % 1000) as i16);
        } else {
            black_box(shared.elements.pop());
        }
        last = shared.edits;
    }
    last
}

fn write(lock: &Mutex<Shared>, number: u32) -> u64 {
    let (mut number, mut last) = (next(u64::from(number)), 0);
    for k in 0..EDITS {
        number = next(number);
        let mut shared = lock.lock().unwrap();
        shared.edits += 1;
        let i = pick(number, 4_000);
        black_box(std::mem::replace(&mut shared.elements[i], (k % 1000) as i16));
        last = shared.edits;
    }
    last
}

fn sum(lock: &Mutex<Shared>, number: u32, cells: u32) -> u64 {
    let mut number = next(u64::from(number));
    for _ in 0..SUMS {
        number = next(number);
        let lo = 8 * pick(number, 501 - cells as usize / 8);
        let total: i64 = lock.lock().unwrap().elements[lo..lo + cells as usize].iter().map(|x| i64::from(*x)).sum();
        number = number.wrapping_add(total as u64);
    }
    number
}

fn main() {
    for threads in [1, 2, 4] {
        show_by("push", threads, EDITS, 0, |lock, _| push(lock, RUN / threads));
        show_by("write", threads, EDITS, RUN, write);
        for cells in [8, 64, 4_000] {
            show_by(&format!("sum {cells}"), threads, SUMS, RUN, |lock, number| sum(lock, number, cells));
        }
    }
}
