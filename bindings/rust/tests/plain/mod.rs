//! What plain loops make of elements, numbers to try, and a wait: what several tests need. None needs all of it.
#![allow(dead_code)]

use std::thread;
use std::time::{Duration, Instant};

use livevec::{Kind, Value, Vector};

/// A vector of these elements.
pub fn of(elements: &[i64]) -> Vector {
    let mut vector = Vector::new().unwrap();
    vector.extend_from_slice(elements).unwrap();
    vector
}

/// The value of some elements by a kind, by a loop.
pub fn plain(kind: Kind, elements: &[i64]) -> Value {
    let extreme = |better: fn(i64, i64) -> i64| elements.iter().copied().reduce(better);
    match kind {
        Kind::Sum => Value::Sum(elements.iter().fold(0, |sum: i64, x| sum.wrapping_add(*x))),
        Kind::Least => Value::Least(extreme(i64::min)),
        Kind::Greatest => Value::Greatest(extreme(i64::max)),
        Kind::Best => {
            let ending = elements.iter().scan(None, |ending: &mut Option<i128>, x| {
                *ending = Some(i128::from(*x) + ending.unwrap_or(0).max(0));
                *ending
            });
            Value::Best(ending.max())
        }
        Kind::Affine => {
            let (a, b) = elements.iter().fold((1, 0), |(a, b): (u32, u32), x| {
                let (by, plus) = ((x.div_euclid(256)) as u32, x.rem_euclid(256) as u32);
                (by.wrapping_mul(a), by.wrapping_mul(b).wrapping_add(plus))
            });
            Value::Affine(a, b)
        }
        Kind::Automaton => {
            let step = |state: u8, x: &i64| (2 * state + x.rem_euclid(4) as u8) % 8;
            Value::Automaton([0, 1, 2, 3, 4, 5, 6, 7].map(|state| elements.iter().fold(state, step)))
        }
    }
}

/// Numbers of a fixed sequence, below a bound.
pub fn numbers(mut state: u64) -> impl FnMut(usize) -> usize {
    move |below| {
        state = state.wrapping_mul(6_364_136_223_846_793_005).wrapping_add(1_442_695_040_888_963_407);
        (state >> 33) as usize % below
    }
}

/// Waits for what another thread does soon.
pub fn until(mut is_so: impl FnMut() -> bool) {
    let start = Instant::now();
    while !is_so() {
        assert!(start.elapsed() < Duration::from_secs(8), "it never came");
        thread::sleep(Duration::from_millis(1));
    }
}
