//! The series from outside, beside a plain vector whose start moves.

use livevec::{Refusal, Series, Values, series};

const SHARD: usize = 32_760;

/// A fixed sequence of numbers.
struct Numbers(u64);

impl Numbers {
    fn below(&mut self, bound: usize) -> usize {
        self.0 = self.0.wrapping_mul(6_364_136_223_846_793_005).wrapping_add(1_442_695_040_888_963_407);
        (self.0 >> 20) as usize % bound
    }

    fn element(&mut self) -> i64 {
        if self.below(12) == 0 { i64::MAX } else { self.below(2001) as i64 - 1000 }
    }
}

/// The plain twin: `all[i]` stands under index i, from `first` on.
#[derive(Default)]
struct Plain {
    all: Vec<i64>,
    first: usize,
    edits: u64,
}

impl Plain {
    fn size(&self) -> usize {
        self.all.len()
    }

    fn not_kept(&self) -> Refusal {
        Refusal::NotKept { first: self.first, size: self.size() }
    }

    fn keeps(&self, index: usize) -> bool {
        (self.first..self.size()).contains(&index)
    }
}

/// The values of some elements, by a loop, but for the map and the states.
fn alike(values: Values, elements: &[i64]) {
    assert_eq!(values.sum, elements.iter().fold(0_i64, |sum, x| sum.wrapping_add(*x)));
    assert_eq!((values.least, values.greatest), (elements.iter().min().copied(), elements.iter().max().copied()));
    let mut best = None::<i128>;
    let mut ending = 0_i128;
    for x in elements {
        ending = ending.max(0) + i128::from(*x);
        best = best.max(Some(ending));
    }
    assert_eq!(values.best, best);
}

fn look(series: &Series, plain: &Plain, numbers: &mut Numbers) {
    assert_eq!((series.first(), series.size(), series.edits()), (plain.first, plain.size(), plain.edits));
    assert_eq!((series.len(), series.is_empty()), (plain.size() - plain.first, plain.size() == plain.first));
    let lo = plain.first + numbers.below(plain.size() - plain.first + 1);
    let hi = lo + numbers.below((plain.size() - lo).min(300) + 1);
    let range = lo as u64..hi as u64;
    let reduced = series.reduce(range.clone()).unwrap();
    assert_eq!(reduced.edit, plain.edits);
    assert_eq!(series.ask(range.clone()).unwrap(), reduced);
    alike(reduced.values, &plain.all[lo..hi]);
    assert_eq!(series.to_vec(range).unwrap(), &plain.all[lo..hi]);
}

fn edit(series: &mut Series, plain: &mut Plain, numbers: &mut Numbers) {
    let (i, j, x) = (plain.first + numbers.below(plain.size() - plain.first + 3), numbers.below(plain.size() + 2), numbers.element());
    match numbers.below(if plain.size() - plain.first > 90 { 7 } else { 4 }) {
        0 | 1 => {
            plain.edits += 1;
            assert_eq!(series.push(x), Ok(series::Pushed { edit: plain.edits, index: plain.size() }));
            plain.all.push(x);
        }
        2 if plain.keeps(i) => {
            plain.edits += 1;
            assert_eq!(series.write(i as u64, x), Ok(series::Written { edit: plain.edits, before: plain.all[i] }));
            plain.all[i] = x;
        }
        2 => assert_eq!(series.write(i as u64, x), Err(plain.not_kept())),
        3 if plain.keeps(i) && plain.keeps(j) => {
            plain.edits += 1;
            plain.all.swap(i, j);
            assert_eq!(series.swap(i as u64, j as u64), Ok(series::Swapped { edit: plain.edits, first: plain.all[i] }));
        }
        3 => assert_eq!(series.swap(i as u64, j as u64), Err(plain.not_kept())),
        4 => {
            plain.edits += 1;
            let value = plain.all.pop().unwrap();
            assert_eq!(series.pop(), Ok(series::Popped { edit: plain.edits, value }));
        }
        5 => {
            plain.edits += 1;
            let dropped = numbers.below(4);
            plain.all.truncate(plain.size() - dropped);
            assert_eq!(series.truncate(plain.size()), Ok(series::Dropped { edit: plain.edits, dropped }));
        }
        _ => {
            plain.edits += 1;
            let dropped = numbers.below(5);
            plain.first += dropped;
            assert_eq!(series.expire(plain.first), Ok(series::Dropped { edit: plain.edits, dropped }));
        }
    }
}

#[test]
fn random_edits_are_those_of_a_plain_vector() {
    let (mut series, mut plain, mut numbers) = (Series::new().unwrap(), Plain::default(), Numbers(3));
    assert_eq!(series.pop(), Err(Refusal::Empty));
    assert_eq!(series.reduce(..).unwrap().values.best, None);
    for round in 0..3000 {
        edit(&mut series, &mut plain, &mut numbers);
        if round % 10 == 0 {
            look(&series, &plain, &mut numbers);
        }
    }
    for i in plain.first..plain.size() {
        assert_eq!(series.get(i as u64), Ok(plain.all[i]));
    }
}

#[test]
fn a_window_slides_over_shards() {
    let (mut series, mut plain, mut numbers) = (Series::new().unwrap(), Plain::default(), Numbers(5));
    while plain.size() < 5 * SHARD {
        let more: Vec<i64> = (0..8190).map(|_| numbers.element()).collect();
        plain.edits += more.len() as u64;
        assert_eq!(series.extend_from_slice(&more), Ok(plain.edits));
        plain.all.extend(&more);
        if plain.size() > 2 * SHARD {
            plain.first = plain.size() - 2 * SHARD;
            plain.edits += 1;
            assert_eq!(series.expire(plain.first).unwrap().edit, plain.edits);
            let forgotten = plain.first as u64 - 1;
            assert_eq!(series.get(forgotten), Err(plain.not_kept()));
            assert_eq!(series.write(forgotten, 1), Err(plain.not_kept()));
            assert_eq!(series.expire(forgotten), Err(plain.not_kept()));
            assert_eq!(series.sum(forgotten..), Err(plain.not_kept()));
        }
        look(&series, &plain, &mut numbers);
        alike(series.ask(..).unwrap().values, &plain.all[plain.first..]);
    }
    let send: std::thread::JoinHandle<i64> = std::thread::spawn(move || series.sum(..).unwrap());
    assert_eq!(send.join().unwrap(), plain.all[plain.first..].iter().fold(0_i64, |sum, x| sum.wrapping_add(*x)));
}

#[test]
fn pieces_and_scans_are_those_of_a_loop() {
    let (mut series, mut numbers) = (Series::new().unwrap(), Numbers(7));
    let all: Vec<i64> = (0..SHARD + 2000).map(|_| numbers.element()).collect();
    series.extend_from_slice(&all).unwrap();
    series.expire(700).unwrap();
    let (lo, hi) = (SHARD - 900, SHARD + 1000);
    let (mut at, mut read, mut piece) = (lo as u64, Vec::<i64>::new(), [-5_i64; 300]);
    while at < hi as u64 {
        let many = series.read_into(at..hi as u64, &mut piece[..299]).unwrap();
        read.extend(&piece[..many]);
        at += many as u64;
        assert_eq!(piece[299], -5);
    }
    assert_eq!(read, &all[lo..hi]);
    let with: Vec<Values> = series.scan_inclusive(lo as u64..hi as u64).unwrap().collect();
    let without = series.scan_exclusive(lo as u64..hi as u64).unwrap();
    assert_eq!((with.len(), without.len()), (hi - lo, hi - lo));
    for (k, before) in without.enumerate().step_by(37) {
        alike(with[k], &all[lo..=lo + k]);
        alike(before, &all[lo..lo + k]);
        assert_eq!(with[k], series.reduce(lo as u64..=(lo + k) as u64).unwrap().values);
    }
    let (later, earlier) = (hi, lo);
    assert_eq!(series.reduce(later..earlier), Err(Refusal::BadRange));
    assert_eq!(series.scan_inclusive(later..earlier).unwrap_err(), Refusal::BadRange);
    assert_eq!(series.to_vec(..u64::MAX), Err(Refusal::NotKept { first: 700, size: all.len() }));
    assert_eq!(series.least(700..700), Ok(None));
    assert_eq!((series.greatest(..).unwrap(), series.best(700..701).unwrap()), (all[700..].iter().max().copied(), Some(all[700].into())));
    assert_eq!(format!("{series:?}"), format!("Series {{ first: 700, size: {}, edits: {}, .. }}", all.len(), all.len() + 1));
}
