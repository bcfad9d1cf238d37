//! Times plain Rust at the work that `figures/` and `window/` do, on the same elements, ranges and indices: the part that its word names.
//! Each line that it prints is a label, the least nanoseconds of several tries, and how often the work was done in them; or what was answered
//! last. With two numbers it takes so many turns at a `VecDeque`, whose ranges are folded anew.
#![allow(dead_code)]
use std::collections::VecDeque;
use std::hint::black_box;
use std::time::Instant;

// Parts of one module: compiled as modules of their own, a fold would take other times.
include!("peers/draws.rs");
include!("peers/kinds.rs");
include!("peers/trees.rs");
include!("peers/windows.rs");
include!("peers/lists.rs");

// Elements that are pushed to a series; those that a window keeps, and turns at it; and of how many elements the last ones are.
const COUNT: usize = 10_000_000;
const KEPT: usize = 100_000;
const TURNS: u32 = 1_000_000;
const LAST: usize = 600;

fn main() {
    let words: Vec<String> = std::env::args().skip(1).collect();
    match words.iter().map(String::as_str).collect::<Vec<_>>()[..] {
        ["folds"] => show_folds(),
        ["reductions"] => show_reductions(),
        ["questions"] => show_questions(),
        ["refreshes"] => show_refreshes(),
        ["searches"] => show_searches(),
        ["parallels"] => {
            show_wholes::<Sum>("sum");
            show_wholes::<Best>("best");
        }
        ["series-pushes"] => show_pushes(),
        ["series-questions"] => show_series_questions(),
        ["series-windows"] => show_windows(),
        ["series-searches"] => show_series_searches(),
        ["elements"] => println!("{} elements", black_box(elements(COUNT)).len()),
        [turns, kept] => show_all_turns(turns.parse().unwrap(), kept.parse().unwrap()),
        _ => panic!("no such part: {}", words.join(" ")),
    }
}

// Folds of each kind over a million, and of all elements by what is refreshed.
fn show_folds() {
    let elements = elements(1_048_568);
    of_each_kind!(show_fold, &elements, 1_000_000);
    show_fold::<Six>("six", &elements, 1_048_560);
    show_fold::<Sum>("all sum", &elements, 1_048_560);
    let (sum, (least, (greatest, (best, (line, states))))) = Six::fold(&elements);
    let answers = [sum.into(), least.into(), greatest.into(), best.into(), line.into(), states.into()].map(of_shown);
    println!("answers: {}", answers.map(|number| number.to_string()).join(" "));
}

fn show_fold<S: Summary>(what: &str, elements: &[i64], count: usize) {
    let mut last = S::EMPTY;
    show(&format!("fold {what}"), 1, 30, |number| {
        let from = pick(number, 8);
        let summary = S::fold(&elements[from..from + count]);
        u64::from(std::mem::replace(&mut last, summary) == summary)
    });
}

// Reductions of random ranges, by a fold and by a tree.
fn show_reductions() {
    for size in [1_000, 30_000, 1_048_560] {
        show_reduction::<Sum>("sum", size);
        show_reduction::<Best>("best", size);
    }
}

fn show_reduction<S: Summary>(kind: &str, size: usize) {
    let elements = elements(size);
    let tree = Tree::<S>::new(&elements);
    assert!(tree.reduce(3, size - 2) == S::fold(&elements[3..size - 2]));
    // The ranges of a fold are the first ones, since a fold of all would take long.
    show_ranges(&format!("fold {kind} {size}"), size, 500, 3, |lo, hi| S::fold(&elements[lo..hi]));
    show_ranges(&format!("tree {kind} {size}"), size, 20_000, 10, |lo, hi| tree.reduce(lo, hi));
}

fn show_ranges<S: Summary>(label: &str, size: usize, turns: u32, tries: u32, reduce: impl Fn(usize, usize) -> S) {
    let mut last = S::EMPTY;
    show(label, turns, tries, |number| {
        let (a, b) = (pick(number, size + 1), pick(other(number), size + 1));
        let summary = reduce(a.min(b), a.max(b));
        u64::from(std::mem::replace(&mut last, summary) == summary)
    });
}

// Questions by one kind and random writes, at three sizes by each kind, and of sums at two more.
fn show_questions() {
    for size in [1_000, 30_000, 1_048_560] {
        of_each_kind!(show_asked, size);
        show_folded::<Sum>("sum", size);
    }
    for size in [5_000, 180_000] {
        show_asked::<Sum>("sum", size);
        show_folded::<Sum>("sum", size);
    }
}

// By a tree: ranges, a write and then all or a range by turns, writes alone.
fn show_asked<S: Summary + Into<Shown>>(kind: &str, size: usize) {
    let mut tree = Tree::<S>::new(&elements(size));
    let label = |work: &str| format!("tree {work} {kind} {size}");
    let mut last = Last(tree.reduce(0, size).into());
    show_ranges_of(&label("ask range"), &tree, size, &mut last);
    show(&label("write and ask all"), 10_000, 4, |number| {
        tree.write(pick(number, size), element(number));
        1 + last.is(tree.reduce(0, size))
    });
    show_writes_and_ranges(&label("write and ask range"), &mut tree, size, &mut last, 1);
    println!("answers: {kind} {size} {}", last.number());
    show(&label("write alone"), 10_000, 4, |number| {
        tree.write(pick(number, size), element(number));
        1
    });
}

fn show_ranges_of<S: Summary + Into<Shown>>(label: &str, tree: &Tree<S>, size: usize, last: &mut Last) {
    show(label, 10_000, 4, |number| {
        let (lo, hi) = range(number, size);
        last.is(tree.reduce(lo, hi))
    });
}

// The write gives so much to the number of the next turn.
fn show_writes_and_ranges<S: Summary + Into<Shown>>(label: &str, tree: &mut Tree<S>, size: usize, last: &mut Last, written: u64) {
    show(label, 10_000, 4, |number| {
        tree.write(pick(number, size), element(number));
        let (lo, hi) = range(number, size);
        written + last.is(tree.reduce(lo, hi))
    });
}

// Random ranges by one kind of what a series has, at rest and after a random write.
fn show_series_questions() {
    for size in [1_000, 65_536, 1_000_000] {
        of_each_kind!(show_series_asked, size);
    }
}

fn show_series_asked<S: Summary + Into<Shown>>(kind: &str, size: usize) {
    let (mut tree, mut last) = (Tree::<S>::new(&elements(size)), Last::none());
    show_ranges_of(&format!("range {kind} {size}"), &tree, size, &mut last);
    show_writes_and_ranges(&format!("write and range {kind} {size}"), &mut tree, size, &mut last, 0);
    println!("answers: {kind} {size} {}", last.number());
}

// The same by folds of the elements. They are fewer, since so many would take long.
fn show_folded<S: Summary + Into<Shown>>(kind: &str, size: usize) {
    let mut elements = elements(size);
    let label = |work: &str| format!("fold {work} {kind} {size}");
    let mut last = Last(S::fold(&elements).into());
    show(&label("ask range"), 500, 4, |number| {
        let (lo, hi) = range(number, size);
        last.is(S::fold(&elements[lo..hi]))
    });
    show(&label("write and ask range"), 500, 4, |number| {
        elements[pick(number, size)] = element(number);
        let (lo, hi) = range(number, size);
        1 + last.is(S::fold(&elements[lo..hi]))
    });
    show(&label("write alone"), 10_000, 4, |number| {
        elements[pick(number, size)] = element(number);
        black_box(&elements);
        1
    });
}

// Searches from either end of a random range, by descent of a tree: of the first and the last element that is at least so great, and of the end
// at which a sum is reached. What is looked for is likely to be one element to a million off.
fn show_searches() {
    for size in [1_000, 30_000, 1_048_560] {
        let elements = elements(size);
        let greatest = Tree::<Greatest>::new(&elements);
        show_search("tree ", &format!("first at least {size}"), size, |lo, hi, far| first_at_least(&greatest, lo, hi, far).map(|end| end - 1));
        show_search("tree ", &format!("last at least {size}"), size, |lo, hi, far| {
            greatest.find_start(hi, |most| most.0 >= great(far)).filter(|start| lo <= *start)
        });
        let totals = Tree::<Best>::new(&elements);
        show_search("tree ", &format!("end of a sum {size}"), size, |lo, hi, far| {
            totals.find_end(lo, |run| run.0.is_some_and(|run| run.prefix >= 1i128 << (54 + far / 2))).filter(|end| *end <= hi)
        });
    }
}

// What is looked for, so far off; and the end of the first element that is at least so great.
fn great(far: usize) -> i64 {
    (1i64 << 55) - ((1i64 << 55) >> far)
}

fn first_at_least(greatest: &Tree<Greatest>, lo: usize, hi: usize, far: usize) -> Option<usize> {
    greatest.find_end(lo, |most| most.0 >= great(far)).filter(|end| *end <= hi)
}

fn show_series_searches() {
    for size in [1_000, 65_536, 1_000_000] {
        let tree = Tree::<Greatest>::new(&elements(size));
        show_search("", &format!("first at least {size}"), size, |lo, hi, far| first_at_least(&tree, lo, hi, far));
    }
}

// Shows one search. An empty range has nothing.
fn show_search(by: &str, label: &str, size: usize, find: impl Fn(usize, usize, usize) -> Option<usize>) {
    let mut last = None;
    show(&format!("{by}{label}"), 10_000, 4, |number| {
        let (lo, hi) = range(number, size);
        let found = if lo < hi { find(lo, hi, pick(other(other(other(number))), 20)) } else { None };
        u64::from(std::mem::replace(&mut last, found) == found)
    });
    match by {
        "" => println!("answers: {label} {}", last.unwrap_or(0)),
        _ => println!("answers: {label} {last:?}"),
    }
}

// Writes to a tree, which refreshes all that a write makes stale.
fn show_refreshes() {
    for size in [1_000, 1_048_560] {
        let mut tree = Tree::<Sum>::new(&elements(size));
        show(&format!("tree write {size}"), 1_000, 20, |number| {
            tree.write(pick(number, size), element(number));
            u64::from(tree.nodes[1] == Sum::EMPTY)
        });
    }
}

// Reductions and inclusive scans of all elements but the first few, by one thread.
fn show_wholes<S: Summary>(kind: &str) {
    let elements = elements(1_048_560);
    let mut last = S::EMPTY;
    show(&format!("plain reduce {kind}"), 1, 40, |number| {
        let summary = S::fold(&elements[pick(number, 8)..]);
        u64::from(std::mem::replace(&mut last, summary) == summary)
    });
    show(&format!("plain scan {kind}"), 1, 40, |number| {
        let mut summary = S::EMPTY;
        let mut values = Vec::new();
        values.extend(elements[pick(number, 8)..].iter().map(|x| {
            summary = summary.join(S::of(*x));
            summary
        }));
        let summary = black_box(&values)[values.len() - 1];
        u64::from(std::mem::replace(&mut last, summary) == summary)
    });
}

fn show_once(label: &str, began: Instant, turns: usize) {
    println!("{label}: {} {turns}", began.elapsed().as_nanos());
}

// Pushes to a `Vec`; and the same with a sum beside it, which is told after each million.
fn show_pushes() {
    let (began, mut number) = (Instant::now(), black_box(1));
    let mut items = Vec::new();
    for _ in 0..COUNT {
        number = next(number);
        items.push(element(number));
    }
    black_box(&items);
    show_once("pushes", began, COUNT);
    println!("answers: pushes {number}");
    drop(items);
    let (began, mut number) = (Instant::now(), black_box(1));
    let (mut items, mut sum) = (Vec::new(), 0u64);
    for _ in 0..10 {
        for _ in 0..COUNT / 10 {
            number = next(number);
            items.push(element(number));
            sum = sum.wrapping_add(element(number) as u64);
        }
        number ^= sum;
    }
    black_box(&items);
    show_once("pushes and sums", began, COUNT);
    println!("answers: pushes and sums {number}");
}

// A window that slides, by two stacks; and the last 600, by two trees in a ring, and by a sum and a queue of candidates.
fn show_windows() {
    show_window::<Sum>("sum");
    show_window::<Greatest>("greatest");
    let elements = elements(LAST);
    let (mut sums, mut greatest) = (Ring::<Sum>::new(&elements), Ring::<Greatest>::new(&elements));
    show_last("last trees", |x| (sums.push(x), greatest.push(x)));
    let mut candidates = Candidates::new(&elements);
    show_last("last deques", |x| candidates.push(x));
}

fn show_window<S: Summary + Into<Shown>>(kind: &str) {
    let mut stacks = Stacks::<S>::new(&elements(KEPT));
    let mut last = Last::none();
    show(&format!("window {kind}"), TURNS, 1, |number| {
        stacks.push(element(number));
        stacks.pop();
        last.is(stacks.value())
    });
    println!("answers: window {kind} {}", last.number());
}

fn show_last(label: &str, mut push: impl FnMut(i64) -> (Sum, Greatest)) {
    let (mut sum, mut greatest) = (Last::none(), Last::none());
    show(label, TURNS, 1, |number| {
        let (a, b) = push(element(number));
        sum.is(a) + greatest.is(b)
    });
    println!("answers: last {} {}", sum.number(), greatest.number());
}
