//! A plain Rust program that answers the scripts of `lines`: the same grammar, replies and journal, with nothing proved.
#![allow(dead_code)]
use std::io::{BufRead, BufReader, BufWriter, Write};

enum Edit {
    Push(i64),
    Pop,
    Write(u32, i64),
}

#[derive(Default)]
struct Vector {
    items: Vec<i64>,
    journal: Vec<Edit>,
}

fn main() {
    let mut input = BufReader::with_capacity(1 << 16, std::io::stdin().lock());
    let mut out = BufWriter::with_capacity(1 << 16, std::io::stdout().lock());
    let (mut vector, mut line, mut number) = (Vector::default(), Vec::new(), 0);
    loop {
        line.clear();
        if input.read_until(b'\n', &mut line).unwrap() == 0 {
            break;
        }
        number += 1;
        if line.last() == Some(&b'\n') {
            line.pop();
        }
        if line.last() == Some(&b'\r') {
            line.pop();
        }
        if answer(&mut vector, &line, &mut out).is_none() {
            writeln!(out, "bad {number}").unwrap();
        }
    }
    out.flush().unwrap();
    std::hint::black_box(&vector.journal);
}

// Answers a line, unless it says nothing known.
fn answer(vector: &mut Vector, line: &[u8], out: &mut impl Write) -> Option<()> {
    let text = std::str::from_utf8(line).ok()?;
    let mut words = text.split(' ').filter(|word| !word.is_empty());
    let Some(verb) = words.next() else { return Some(()) };
    if verb.starts_with('#') {
        return Some(());
    }
    match verb {
        "push" => {
            let x = words.next()?.parse().ok()?;
            vector.items.push(x);
            vector.journal.push(Edit::Push(x));
            writeln!(out, "edit {} at {}", vector.journal.len(), vector.items.len() - 1).unwrap();
        }
        "pop" => match vector.items.pop() {
            None => writeln!(out, "refused 2").unwrap(),
            Some(x) => {
                vector.journal.push(Edit::Pop);
                writeln!(out, "edit {} value {x}", vector.journal.len()).unwrap();
            }
        },
        "write" => {
            let i: u32 = words.next()?.parse().ok()?;
            let x = words.next()?.parse().ok()?;
            match vector.items.get_mut(i as usize) {
                None => writeln!(out, "refused 3").unwrap(),
                Some(item) => {
                    let before = std::mem::replace(item, x);
                    vector.journal.push(Edit::Write(i, x));
                    writeln!(out, "edit {} was {before}", vector.journal.len()).unwrap();
                }
            }
        }
        "get" => {
            let i: u32 = words.next()?.parse().ok()?;
            match vector.items.get(i as usize) {
                None => writeln!(out, "refused 3").unwrap(),
                Some(x) => writeln!(out, "value {x}").unwrap(),
            }
        }
        "size" => writeln!(out, "size {} edit {}", vector.items.len(), vector.journal.len()).unwrap(),
        "reduce" if words.next()? == "sum" => {
            let lo: u32 = words.next()?.parse().ok()?;
            let hi: u32 = words.next()?.parse().ok()?;
            if lo > hi {
                writeln!(out, "refused 7").unwrap();
            } else if hi as usize > vector.items.len() {
                writeln!(out, "refused 3").unwrap();
            } else {
                let sum = vector.items[lo as usize..hi as usize].iter().fold(0u64, |s, x| s.wrapping_add(*x as u64));
                writeln!(out, "at {} sum {sum}", vector.journal.len()).unwrap();
            }
        }
        _ => return None,
    }
    words.next().is_none().then_some(())
}
