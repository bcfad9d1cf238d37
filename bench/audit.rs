//! Plain Rust at the work of `livevec audit`: reads a transcript and says whether it is sound, folding the one kind that each answer asks.
//! `audit KIND WIDTH` writes a sound one: 200,000 edits, and 20,000 answers over ranges of that width. The same words give the same transcript.
use std::io::{BufRead, BufReader, BufWriter, Write};

include!("peers/dice.rs");
include!("peers/runs.rs");

const EDITS: u64 = 200_000;
const ANSWERS: u64 = 20_000;
const CELLS: usize = 1_048_568;

#[derive(Clone, Copy)]
enum Edit {
    Push(i64),
    Pop,
    Write(u32, i64),
    Reserve(u32),
}

// Makes an edit, where it is possible.
fn make(list: &mut Vec<i64>, edit: Edit) -> Option<()> {
    match edit {
        Edit::Push(x) => (list.len() < CELLS).then(|| list.push(x)),
        Edit::Pop => list.pop().map(|_| ()),
        Edit::Write(i, x) => list.get_mut(i as usize).map(|item| *item = x),
        Edit::Reserve(cells) => (cells as usize <= CELLS).then_some(()),
    }
}

fn some(x: Option<impl ToString>) -> String {
    x.map_or("none".to_string(), |x| x.to_string())
}

// The text of a kind's value.
fn value(kind: &str, xs: &[i64]) -> Option<String> {
    Some(match kind {
        "sum" => xs.iter().fold(0u64, |sum, x| sum.wrapping_add(*x as u64)).to_string(),
        "least" => some(xs.iter().min()),
        "greatest" => some(xs.iter().max()),
        "best" => some(best_run(xs)),
        "affine" => {
            let (a, b) = xs.iter().fold((1u32, 0u32), |(a, b), x| {
                let (slope, rest) = ((*x >> 8) as u32, (*x & 255) as u32);
                (a.wrapping_mul(slope), b.wrapping_mul(slope).wrapping_add(rest))
            });
            format!("{a} {b}")
        }
        "automaton" => {
            let mut states = [0u8, 1, 2, 3, 4, 5, 6, 7];
            for x in xs {
                states = states.map(|q| (2 * q + (*x & 3) as u8) % 8);
            }
            states.map(|q| q.to_string()).join(" ")
        }
        _ => return None,
    })
}

fn main() -> std::io::Result<()> {
    let words: Vec<String> = std::env::args().skip(1).collect();
    match &words[..] {
        [kind, width] if KINDS.contains(&kind.as_str()) => write(kind, width.parse().unwrap()),
        _ => Ok(println!("{}", audit()?)),
    }
}

// Writes a transcript. Half of the edits fill the list; the answers come after the others, evenly apart.
fn write(kind: &str, width: u64) -> std::io::Result<()> {
    let mut out = BufWriter::with_capacity(1 << 16, std::io::stdout().lock());
    let (mut dice, mut list, mut edits) = (Dice(1), Vec::new(), Vec::new());
    writeln!(out, "livevec 1")?;
    for n in 0..EDITS {
        let (roll, x) = (dice.below(16), i64::from(dice.element()));
        let edit = match roll {
            _ if n < EDITS / 2 => Edit::Push(x),
            0..=3 => Edit::Push(x),
            4..=6 => Edit::Pop,
            _ => Edit::Write(dice.below(list.len() as u64) as u32, x),
        };
        make(&mut list, edit).unwrap();
        edits.push(edit);
        match edit {
            Edit::Push(x) => writeln!(out, "j push {x}")?,
            Edit::Pop => writeln!(out, "j pop")?,
            Edit::Write(i, x) => writeln!(out, "j write {i} {x}")?,
            Edit::Reserve(cells) => writeln!(out, "j reserve {cells}")?,
        }
    }
    let (mut list, mut made) = (Vec::new(), 0);
    for n in 0..ANSWERS {
        let edit = EDITS / 2 + n * (EDITS / 2) / (ANSWERS - 1);
        edits[made..edit as usize].iter().for_each(|edit| make(&mut list, *edit).unwrap());
        made = edit as usize;
        let lo = dice.below(list.len() as u64 - width);
        let hi = lo + width;
        writeln!(out, "a {edit} {kind} {lo} {hi} {}", value(kind, &list[lo as usize..hi as usize]).unwrap())?;
    }
    writeln!(out, "end")
}

#[derive(Default)]
struct Audit {
    started: bool,
    answering: bool,
    ended: bool,
    edits: Vec<Edit>,
    // All edits made, and those up to the last answer.
    list: Vec<i64>,
    replay: Vec<i64>,
    made: usize,
}

// The verdict on standard input.
fn audit() -> std::io::Result<String> {
    let mut input = BufReader::with_capacity(1 << 16, std::io::stdin().lock());
    let (mut audit, mut line, mut number) = (Audit::default(), Vec::new(), 0);
    loop {
        line.clear();
        if input.read_until(b'\n', &mut line)? == 0 {
            break;
        }
        number += 1;
        if line.last() == Some(&b'\n') {
            line.pop();
        }
        match audit.take(&line) {
            Some(true) => {}
            Some(false) => return Ok(format!("no {number}")),
            None => return Ok(format!("bad {number}")),
        }
    }
    Ok(if audit.ended { "yes".to_string() } else { format!("bad {}", number + 1) })
}

// A number in its one spelling.
fn number<T: std::str::FromStr>(word: &str) -> Option<T> {
    let digits = word.strip_prefix('-').unwrap_or(word);
    let plain = digits == "0" && word == "0" || !digits.starts_with(['0', '+', '-']);
    if plain { word.parse().ok() } else { None }
}

impl Audit {
    // Whether a line is true, where it may stand.
    fn take(&mut self, line: &[u8]) -> Option<bool> {
        if line.len() > 120 || self.ended {
            return None;
        }
        if !self.started {
            self.started = line == b"livevec 1";
            return self.started.then_some(true);
        }
        if line == b"end" {
            self.ended = true;
            return Some(true);
        }
        if !self.answering {
            if let Some(rest) = line.strip_prefix(b"j ") {
                let edit = read_edit(std::str::from_utf8(rest).ok()?)?;
                self.edits.push(edit);
                return Some(make(&mut self.list, edit).is_some());
            }
        }
        self.answering = true;
        let mut words = std::str::from_utf8(line).ok()?.splitn(6, ' ');
        if words.next()? != "a" {
            return None;
        }
        let (edit, kind): (u32, _) = (number(words.next()?)?, words.next()?);
        let (lo, hi): (u32, u32) = (number(words.next()?)?, number(words.next()?)?);
        let told = words.next()?;
        if (edit as usize) < self.made {
            return None;
        }
        if edit as usize > self.edits.len() {
            return Some(false);
        }
        while self.made < edit as usize {
            make(&mut self.replay, self.edits[self.made]);
            self.made += 1;
        }
        match self.replay.get(lo as usize..hi as usize) {
            Some(xs) => Some(value(kind, xs)? == told),
            None => Some(false),
        }
    }
}

fn read_edit(text: &str) -> Option<Edit> {
    let mut words = text.split(' ');
    let edit = match words.next()? {
        "push" => Edit::Push(number(words.next()?)?),
        "pop" => Edit::Pop,
        "write" => Edit::Write(number(words.next()?)?, number(words.next()?)?),
        "reserve" => Edit::Reserve(number(words.next()?)?),
        _ => return None,
    };
    words.next().is_none().then_some(edit)
}
