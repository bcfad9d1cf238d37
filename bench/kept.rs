//! A plain Rust program that answers scripts of `watch`, `push`, `pop`, `write`, `reduce` and `inc sum` with the same replies and notes as
//! `livevec run`. With `trees KIND..` it keeps a bottom-up segment tree over the elements for each kind that is named or watched; with
//! `folds` it keeps the elements alone, and folds each range that is asked for.
#![allow(dead_code, unused_macros)]
use std::io::{BufRead, BufReader, BufWriter, Write};

// Parts of one module: compiled as modules of their own, an edit would take other times.
include!("peers/dice.rs");
include!("peers/kinds.rs");
include!("peers/trees.rs");

// A tree over the elements, of any kind. It doubles where it is full.
trait Kept {
    fn set(&mut self, i: usize, x: Option<i64>);
    fn ask(&self, lo: usize, hi: usize) -> Shown;
}

impl<S: Summary + Into<Shown>> Kept for Tree<S> {
    fn set(&mut self, i: usize, x: Option<i64>) {
        while i >= self.nodes.len() / 2 {
            self.double();
        }
        self.put(i, x.map_or(S::EMPTY, S::of));
    }

    fn ask(&self, lo: usize, hi: usize) -> Shown {
        let leaves = self.nodes.len() / 2;
        if lo == 0 && hi >= leaves {
            return self.nodes[1].into();
        }
        self.reduce(lo.min(leaves), hi.min(leaves)).into()
    }
}

// A tree for a kind, with these elements.
fn grown(kind: usize, items: &[i64]) -> Box<dyn Kept> {
    fn tree<S: Summary + Into<Shown> + 'static>(items: &[i64]) -> Box<dyn Kept> {
        Box::new(Tree::<S>::new(items))
    }
    [tree::<Sum>, tree::<Least>, tree::<Greatest>, tree::<Best>, tree::<Affine>, tree::<Automaton>][kind](items)
}

// What a kind folds to over some elements.
fn folded(kind: usize, items: &[i64]) -> Shown {
    fn fold<S: Summary + Into<Shown>>(items: &[i64]) -> Shown {
        S::fold(items).into()
    }
    [fold::<Sum>, fold::<Least>, fold::<Greatest>, fold::<Best>, fold::<Affine>, fold::<Automaton>][kind](items)
}

fn kind_named(word: &str) -> Option<usize> {
    KINDS.iter().position(|kind| *kind == word)
}

fn put(out: &mut impl Write, value: Shown) {
    match value {
        Shown::Sum(n) => write!(out, "{n}"),
        Shown::Extreme(Some(n)) => write!(out, "{n}"),
        Shown::Best(Some(n)) => write!(out, "{n}"),
        Shown::Extreme(None) | Shown::Best(None) => write!(out, "none"),
        Shown::Affine(a, b) => write!(out, "{a} {b}"),
        Shown::Automaton([a, b, c, d, e, f, g, h]) => write!(out, "{a} {b} {c} {d} {e} {f} {g} {h}"),
    }
    .unwrap();
}

struct Watch {
    name: String,
    kind: usize,
    lo: usize,
    hi: usize,
    value: Shown,
}

#[derive(Default)]
struct Vector {
    folds: bool,
    items: Vec<i64>,
    edits: usize,
    trees: [Option<Box<dyn Kept>>; 6],
    watches: Vec<Watch>,
}

impl Vector {
    fn set(&mut self, i: usize, x: Option<i64>) {
        for tree in self.trees.iter_mut().flatten() {
            tree.set(i, x);
        }
    }

    // Keeps a tree for a kind from now on, unless ranges are folded.
    fn keep(&mut self, kind: usize) {
        if !self.folds && self.trees[kind].is_none() {
            self.trees[kind] = Some(grown(kind, &self.items));
        }
    }

    // What a kind comes to over a range, as far as there are elements.
    fn value(&self, kind: usize, lo: usize, hi: usize) -> Shown {
        match &self.trees[kind] {
            Some(tree) => tree.ask(lo, hi),
            None => folded(kind, &self.items[lo.min(self.items.len())..hi.min(self.items.len())]),
        }
    }

    fn reduce(&self, kind: usize, lo: usize, hi: usize, out: &mut impl Write) {
        write!(out, "at {} {} ", self.edits, KINDS[kind]).unwrap();
        put(out, self.value(kind, lo, hi));
        out.write_all(b"\n").unwrap();
    }

    // The running sums of a range, each a line.
    fn scan(&self, lo: usize, hi: usize, out: &mut impl Write) {
        writeln!(out, "at {} inc sum {}", self.edits, hi - lo).unwrap();
        let mut sum = 0u64;
        for x in &self.items[lo..hi] {
            sum = sum.wrapping_add(*x as u64);
            writeln!(out, "= {sum}").unwrap();
        }
    }

    // One note for each query whose answer is another than before.
    fn notes(&mut self, i: usize, out: &mut impl Write) {
        for number in 0..self.watches.len() {
            let watch = &self.watches[number];
            if i < watch.lo || watch.hi <= i {
                continue;
            }
            let value = self.value(watch.kind, watch.lo, watch.hi);
            if value != watch.value {
                self.watches[number].value = value;
                write!(out, "note {} ", self.watches[number].name).unwrap();
                put(out, value);
                out.write_all(b"\n").unwrap();
            }
        }
    }

    fn answer(&mut self, line: &str, out: &mut impl Write) -> Option<()> {
        let mut words = line.split(' ');
        let i = match words.next()? {
            "watch" => {
                let name = words.next()?.to_string();
                let kind = kind_named(words.next()?)?;
                let (lo, hi) = (words.next()?.parse().ok()?, words.next()?.parse().ok()?);
                self.keep(kind);
                let value = self.value(kind, lo, hi);
                writeln!(out, "watching {name}").unwrap();
                self.watches.push(Watch { name, kind, lo, hi, value });
                return Some(());
            }
            "reduce" => {
                let kind = kind_named(words.next()?)?;
                self.reduce(kind, words.next()?.parse().ok()?, words.next()?.parse().ok()?, out);
                return Some(());
            }
            "inc" => {
                words.next().filter(|kind| *kind == "sum")?;
                self.scan(words.next()?.parse().ok()?, words.next()?.parse().ok()?, out);
                return Some(());
            }
            "push" => {
                let (i, x) = (self.items.len(), words.next()?.parse().ok()?);
                self.items.push(x);
                self.edits += 1;
                writeln!(out, "edit {} at {i}", self.edits).unwrap();
                self.set(i, Some(x));
                i
            }
            "pop" => {
                let (x, i) = (self.items.pop()?, self.items.len());
                self.edits += 1;
                writeln!(out, "edit {} value {x}", self.edits).unwrap();
                self.set(i, None);
                i
            }
            "write" => {
                let (i, x): (usize, i64) = (words.next()?.parse().ok()?, words.next()?.parse().ok()?);
                let before = std::mem::replace(self.items.get_mut(i)?, x);
                self.edits += 1;
                writeln!(out, "edit {} was {before}", self.edits).unwrap();
                self.set(i, Some(x));
                i
            }
            _ => return None,
        };
        self.notes(i, out);
        Some(())
    }
}

fn main() {
    let mut out = BufWriter::with_capacity(1 << 16, std::io::stdout().lock());
    let words: Vec<String> = std::env::args().skip(1).collect();
    let mut vector = Vector { folds: words[0] == "folds", ..Vector::default() };
    for kind in &words[1..] {
        vector.keep(kind_named(kind).expect("a kind"));
    }
    let mut input = BufReader::with_capacity(1 << 16, std::io::stdin().lock());
    let mut line = String::new();
    while input.read_line(&mut line).unwrap() > 0 {
        vector.answer(line.trim_end(), &mut out).expect("a line that is known and not refused");
        line.clear();
    }
    out.flush().unwrap();
}
