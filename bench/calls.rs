//! Rolling windows from Rust compared with what a user has else: a fold of a deque, a queue of candidates, two stacks, a Fenwick tree, and a segment tree.
//! Prints lines of a label, nanoseconds and how often the work was done in them; what the peers answer is compared.
//!
//! A step is a new element, then the sum and the greatest of the last 10,000; or also a late correction of one among them. A sample is one with a
//! time, then the sum, the greatest and the count of the last 1, 5 and 60 minutes.
#![allow(dead_code, unused_macros)]

use std::collections::VecDeque;
use std::hint::black_box;
use std::time::Instant;

use livevec::{Refusal, Samples, Series, Value};

include!("peers/dice.rs");
include!("peers/kinds.rs");
include!("peers/trees.rs");
include!("peers/windows.rs");

const WINDOW: usize = 10_000;
const STEPS: usize = 100_000;
// a fold takes long
const FOLDED: usize = 2_000;

/// What is answered after a step: the sum and the greatest.
type Both = (Sum, Greatest);

struct Step {
    value: i64,
    /// The place among the last elements that is corrected, and by what.
    late: Option<(usize, i64)>,
}

fn timed<T>(label: &str, turns: usize, work: impl FnOnce() -> T) -> T {
    let start = Instant::now();
    let made = black_box(work());
    println!("{label}: {} {turns}", start.elapsed().as_nanos());
    made
}

fn small(dice: &mut Dice) -> i64 {
    dice.below(2_001) as i64 - 1_000
}

fn by_livevec(start: &[i64], steps: &[Step]) -> Result<Vec<Both>, Refusal> {
    let mut series = Series::try_from(start)?;
    series.prepare(livevec::Kind::Sum)?;
    series.prepare(livevec::Kind::Greatest)?;
    let mut told = Vec::with_capacity(steps.len());
    for step in steps {
        let end = series.push(step.value)?.index + 1;
        if let Some((place, value)) = step.late {
            series.write(end - WINDOW + place, value)?;
        }
        told.push((Sum(series.sum(end - WINDOW..end)?), Greatest(series.greatest(end - WINDOW..end)?.unwrap_or(0))));
        if end.is_multiple_of(100) {
            series.expire(end - WINDOW)?;
        }
    }
    Ok(told)
}

fn by_deque(start: &[i64], steps: &[Step]) -> Vec<Both> {
    let mut held: VecDeque<i64> = start.iter().copied().collect();
    let step = |step: &Step| {
        held.pop_front();
        held.push_back(step.value);
        if let Some((place, value)) = step.late {
            held[place] = value;
        }
        (Sum(held.iter().sum()), Greatest(*held.iter().max().expect("there are some")))
    };
    steps.iter().map(step).collect()
}

/// The sums by a Fenwick tree over a ring of the last elements. It has no greatest that takes a correction.
fn by_fenwick(start: &[i64], steps: &[Step]) -> Vec<i64> {
    let (mut tree, mut held, mut at) = (vec![0; WINDOW + 1], vec![0; WINDOW], 0);
    let mut write = |index: usize, value: i64| {
        let by = value - std::mem::replace(&mut held[index], value);
        let mut node = index + 1;
        while node <= WINDOW {
            tree[node] += by;
            node += node & node.wrapping_neg();
        }
        let (mut total, mut node) = (0, WINDOW);
        while node > 0 {
            total += tree[node];
            node &= node - 1;
        }
        total
    };
    for (index, &value) in start.iter().enumerate() {
        write(index, value);
    }
    let step = |step: &Step| {
        let total = write(at, step.value);
        at = (at + 1) % WINDOW;
        step.late.map_or(total, |(place, value)| write((at + place) % WINDOW, value))
    };
    steps.iter().map(step).collect()
}

/// A segment tree over a ring of the last elements. All of the ring is asked: its root.
fn by_segment_tree(start: &[i64], steps: &[Step]) -> Vec<Both> {
    let mut ring = Ring::<Both>::new(start);
    let step = |step: &Step| {
        let pushed = ring.push(step.value);
        step.late.map_or(pushed, |(place, value)| ring.write(place, value))
    };
    steps.iter().map(step).collect()
}

/// A running total, and the queue of those that may come to be the greatest; or two stacks. A correction is more than they take.
fn by_candidates(start: &[i64], steps: &[Step]) -> Vec<Both> {
    let mut held = Candidates::new(start);
    steps.iter().map(|step| held.push(step.value)).collect()
}

fn by_two_stacks(start: &[i64], steps: &[Step]) -> Vec<Both> {
    let mut stacks = Stacks::<Both>::new(start);
    let step = |step: &Step| {
        stacks.push(step.value);
        stacks.pop();
        stacks.value()
    };
    steps.iter().map(step).collect()
}

/// Seconds, of which samples come about four in each.
const SPANS: [u64; 3] = [60, 300, 3_600];
/// So many samples come first, some two hours of them.
const BEFORE: usize = 28_800;

/// The sum, the greatest and the count of each span.
type Spans = [(i64, i64, usize); 3];

fn samples_by_livevec(samples: &[(i64, i64)]) -> Result<Vec<Spans>, Refusal> {
    let (times, values): (Vec<i64>, Vec<i64>) = samples[..BEFORE].iter().copied().unzip();
    let mut load = Samples::new()?;
    load.push_many(&times, &values)?;
    load.prepare(livevec::Kind::Sum)?;
    load.prepare(livevec::Kind::Greatest)?;
    let mut told = Vec::with_capacity(samples.len() - BEFORE);
    for &(time, value) in &samples[BEFORE..] {
        load.push(time, value)?;
        let mut spans = [(0, 0, 0); 3];
        for (told, span) in spans.iter_mut().zip(SPANS) {
            let window = load.last(span);
            let Value::Sum(sum) = load.value_of_last(livevec::Kind::Sum, span)? else { unreachable!() };
            *told = (sum, load.values().greatest(window.clone())?.unwrap_or(0), window.len());
        }
        told.push(spans);
    }
    Ok(told)
}

fn samples_by_deque(samples: &[(i64, i64)]) -> Vec<Spans> {
    let mut held: VecDeque<(i64, i64)> = samples[..BEFORE].iter().copied().collect();
    let sample = |&(time, value): &(i64, i64)| {
        held.push_back((time, value));
        while held.front().is_some_and(|&(first, _)| first <= time - 2 * SPANS[2] as i64) {
            held.pop_front();
        }
        SPANS.map(|span| {
            let from = held.partition_point(|&(at, _)| at <= time - span as i64);
            let values = || held.range(from..).map(|&(_, value)| value);
            (values().sum(), values().max().expect("there are some"), values().len())
        })
    };
    samples[BEFORE..].iter().map(sample).collect()
}

fn main() -> Result<(), Refusal> {
    let dice = &mut Dice(5);
    let start: Vec<i64> = (0..WINDOW).map(|_| small(dice)).collect();
    for (is_late, what) in [(false, "step"), (true, "corrected step")] {
        let steps: Vec<Step> = (0..STEPS)
            .map(|_| {
                let (value, late) = (small(dice), (dice.below(WINDOW as u64) as usize, small(dice)));
                Step { value, late: is_late.then_some(late) }
            })
            .collect();
        let told = timed(&format!("livevec {what}"), STEPS, || by_livevec(&start, &steps))?;
        assert!(timed(&format!("deque {what}"), FOLDED, || by_deque(&start, &steps[..FOLDED])) == told[..FOLDED]);
        let sums = timed(&format!("fenwick {what}"), STEPS, || by_fenwick(&start, &steps));
        assert!(sums.iter().eq(told.iter().map(|(sum, _)| &sum.0)));
        assert!(timed(&format!("segment tree {what}"), STEPS, || by_segment_tree(&start, &steps)) == told);
        if !is_late {
            assert!(timed(&format!("candidates {what}"), STEPS, || by_candidates(&start, &steps)) == told);
            assert!(timed(&format!("two stacks {what}"), STEPS, || by_two_stacks(&start, &steps)) == told);
        }
    }
    let mut time = 0;
    let samples: Vec<(i64, i64)> = (0..BEFORE + STEPS)
        .map(|_| {
            time += i64::from(dice.below(4) == 0);
            (time, small(dice))
        })
        .collect();
    let told = timed("livevec sample", STEPS, || samples_by_livevec(&samples))?;
    assert_eq!(timed("deque sample", FOLDED, || samples_by_deque(&samples[..BEFORE + FOLDED])), told[..FOLDED]);
    Ok(())
}
