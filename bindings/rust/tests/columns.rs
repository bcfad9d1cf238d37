//! Columns of running values from outside, beside plain loops over the same numbers.

use livevec::{Column, Filled, Refusal, Vector, by};

/// The numbers of a fixed sequence.
fn numbers(count: usize) -> Vec<i64> {
    let mut state = 5_u64;
    let next = || {
        state = state.wrapping_mul(6_364_136_223_846_793_005).wrapping_add(1_442_695_040_888_963_407);
        if state >> 60 == 0 { i64::MAX } else { (state >> 33) as i64 % 2001 - 1000 }
    };
    std::iter::repeat_with(next).take(count).collect()
}

/// What is in a column after a scan with each element, and after one without.
fn both<K: Column>(vector: &Vector, lo: usize, hi: usize) -> (Vec<K::Cell>, Vec<K::Cell>) {
    let (mut with, mut without) = (vec![K::Cell::default(); hi - lo], vec![K::Cell::default(); hi - lo]);
    assert_eq!(vector.scan_inclusive_into::<K>(lo..hi, &mut with).unwrap().edit, vector.edits());
    assert_eq!(vector.scan_exclusive_into::<K>(lo..hi, &mut without).unwrap().cells.len(), hi - lo);
    (with, without)
}

#[test]
fn columns_are_those_of_a_loop() {
    let mut plain = numbers(700);
    let mut vector = Vector::try_from(&plain[..]).unwrap();
    for (lo, hi) in [(0, 700), (13, 14), (8, 600), (300, 300), (699, 700)] {
        plain[hi - 1] = -7;
        vector.write(hi as u32 - 1, -7).unwrap();
        let (mut sum, mut low, mut high, mut ending, mut best) = (0_i64, 0, 0, 0_i128, 0_i128);
        let (mut map, mut states) = ([1_u32, 0], [0, 1, 2, 3, 4, 5, 6, 7_u8]);
        let (sums, lows, highs) =
            (both::<by::Sum>(&vector, lo, hi), both::<by::Least>(&vector, lo, hi), both::<by::Greatest>(&vector, lo, hi));
        let (bests, maps, tables) =
            (both::<by::Best>(&vector, lo, hi), both::<by::Affine>(&vector, lo, hi), both::<by::Automaton>(&vector, lo, hi));
        for (at, &x) in plain[lo..hi].iter().enumerate() {
            assert_eq!((sums.1[at], lows.1[at], highs.1[at], bests.1[at], maps.1[at], tables.1[at]), (sum, low, high, best, map, states));
            sum = sum.wrapping_add(x);
            low = if at == 0 { x } else { low.min(x) };
            high = if at == 0 { x } else { high.max(x) };
            ending = if at == 0 { x.into() } else { ending.max(0) + i128::from(x) };
            best = if at == 0 { ending } else { best.max(ending) };
            let (slope, rest) = ((x.div_euclid(256)) as u32, x.rem_euclid(256) as u32);
            map = [slope.wrapping_mul(map[0]), slope.wrapping_mul(map[1]).wrapping_add(rest)];
            states = states.map(|state| (2 * state + x.rem_euclid(4) as u8) % 8);
            assert_eq!((sums.0[at], lows.0[at], highs.0[at], bests.0[at], maps.0[at], tables.0[at]), (sum, low, high, best, map, states));
        }
    }
}

#[test]
fn what_is_refused_leaves_the_column() {
    let vector = Vector::try_from([1, 2, 3]).unwrap();
    let mut sums = [7; 2];
    assert_eq!(vector.scan_inclusive_into::<by::Sum>(2..1, &mut sums).unwrap_err(), Refusal::BadRange);
    assert_eq!(vector.scan_inclusive_into::<by::Sum>(2..4, &mut sums).unwrap_err(), Refusal::OutOfRange { size: 3 });
    assert_eq!(vector.scan_exclusive_into::<by::Sum>(.., &mut sums).unwrap_err(), Refusal::ShortBuffer { wanted: 3 });
    assert_eq!(sums, [7; 2]);
    assert_eq!(vector.scan_exclusive_into::<by::Sum>(1..1, &mut []).unwrap(), Filled { edit: 3, cells: &mut [] });
}
