//! What a series and samples have as a vector has it, beside plain vectors; and indices of any type.

use livevec::{Answered, Kind, Limits, Refusal, RefusedAt, Sample, Samples, Series, Shared, Value, Vector, series};
use std::ops::Bound;

fn numbers(length: i64) -> Vec<i64> {
    (0..length).map(|i| i * i % 97 - 40).collect()
}

#[test]
fn an_index_is_of_any_type() {
    let row = numbers(40);
    let (mut vector, mut readings) = (Vector::try_from(&row[..]).unwrap(), Series::try_from(&row[..]).unwrap());
    for i in 0..40_usize {
        let wanted = Ok(row[i]);
        assert_eq!([vector.get(i), vector.get(i as u64), vector.get(i as u32), vector.get(i as i32)], [wanted; 4]);
        assert_eq!([readings.get(i), readings.get(i as u64), readings.get(i as u32), readings.get(i as i32)], [wanted; 4]);
        let sum = Ok(row[i..].iter().sum());
        assert_eq!([vector.sum(i..), vector.sum(i as u64..), vector.sum(i as u32..40), vector.sum(i as i32..=39)], [sum; 4]);
        assert_eq!([readings.sum(i..), readings.sum(i as u64..), readings.sum(i as u32..40), readings.sum(i as i32..=39)], [sum; 4]);
        assert_eq!(readings.sum((Bound::Included(&i), Bound::<&usize>::Unbounded)), sum);
        assert_eq!(readings.sum(&(i as u64)..&40), sum);
    }
    let past = Refusal::OutOfRange { size: 40 };
    assert_eq!([vector.get(40_u64), vector.get(u64::MAX), vector.get(1_u64 << 32), vector.get(-1)], [Err(past); 4]);
    assert_eq!([vector.sum(0..u64::MAX), vector.sum(-1..3), vector.sum(1_u64 << 32..1 << 33)], [Err(past); 3]);
    let not_kept = Refusal::NotKept { first: 0, size: 40 };
    assert_eq!([readings.get(40), readings.get(u64::MAX), readings.get(usize::MAX), readings.get(-1)], [Err(not_kept); 4]);
    assert_eq!([readings.sum(0..=u64::MAX), readings.sum(-1..3), readings.sum(..41_usize)], [Err(not_kept); 3]);
    assert_eq!([vector.sum(5_u64..2), readings.sum(5_u32..2), readings.sum(3..-1)], [Err(Refusal::BadRange); 3]);
    assert_eq!(vector.reserve(usize::MAX), Err(Refusal::TooLarge { limit: 1_048_568 }));
    assert_eq!((vector.swap(0_usize, 39_u64).unwrap().first, readings.swap(0_u32, 39).unwrap().first), (row[39], row[39]));
    assert_eq!((vector.truncate(30_usize).unwrap().dropped, readings.truncate(30_usize).unwrap().dropped), (10, 10));
    assert_eq!((readings.expire(7_usize).unwrap().dropped, readings.sum(..).unwrap()), (7, row[7..30].iter().sum::<i64>()));
}

#[test]
fn a_value_tells_its_edit() {
    let mut vector = Vector::try_from([3, 1]).unwrap();
    vector.write(0, 4).unwrap();
    assert_eq!(vector.value_at_edit(Kind::Sum, ..), Ok(Answered { edit: 3, value: Value::Sum(5) }));
    assert_eq!(vector.value_at_edit(Kind::Sum, ..3), Err(Refusal::OutOfRange { size: 2 }));
    let shared = Shared::new(vector);
    assert_eq!(shared.value_at_edit(Kind::Least, 1..).unwrap(), Answered { edit: 3, value: Value::Least(Some(1)) });
    assert_eq!((shared.total(..), shared.total(..3)), (Ok(5), Err(Refusal::OutOfRange { size: 2 })));
    let mut readings = Series::try_from([3, 1]).unwrap();
    readings.expire(1).unwrap();
    assert_eq!(readings.value_at_edit(Kind::Greatest, ..), Ok(series::Answered { edit: 3, value: Value::Greatest(Some(1)) }));
}

#[test]
fn a_series_is_like_a_vec() {
    let row = numbers(1000);
    let mut readings: Series = row.iter().collect();
    assert_eq!(readings, row);
    readings.expire(300).unwrap();
    assert_eq!((readings == row[300..], readings == row, readings.iter().len()), (true, false, 700));
    assert_eq!(readings.iter().collect::<Vec<_>>(), row[300..]);
    assert!(readings.iter().rev().eq(row[300..].iter().rev().copied()));
    // from both ends at once
    let mut both = readings.elements(310..700).unwrap();
    let mut plain = row[310..700].iter().copied();
    for turn in 0.. {
        let (told, wanted) = if turn % 3 == 0 { (both.next_back(), plain.next_back()) } else { (both.next(), plain.next()) };
        assert_eq!((told, both.len()), (wanted, plain.len()));
        if told.is_none() {
            break;
        }
    }
    assert_eq!(readings.elements(299..310).unwrap_err(), Refusal::NotKept { first: 300, size: 1000 });
    assert_eq!(readings.elements(5..3).unwrap_err(), Refusal::BadRange);
    assert_eq!((readings.last(), readings.edits()), (row.last().copied(), 1001));
    let mut clone = readings.try_clone().unwrap();
    assert_eq!((clone == readings, clone.first(), clone.size(), clone.edits()), (true, 300, 1000, 1001));
    clone.write(500, 12_345).unwrap();
    assert!(clone != readings && readings == row[300..]);
    readings.extend([1, 2]);
    readings.extend(&[3]);
    assert_eq!(readings.try_extend([4]), Ok(1005));
    assert_eq!(readings.to_vec(1000..).unwrap(), [1, 2, 3, 4]);
    assert_eq!(readings.into_iter().last(), Some(4));
    assert_eq!((clone.clear().unwrap().dropped, clone.last(), clone.push(1).unwrap().index), (700, None, 300));
    assert_eq!(Series::try_from(vec![7, 8]).unwrap(), Series::try_from([7, 8]).unwrap());
}

#[test]
fn totals_are_exact() {
    let total = |row: &[i64]| row.iter().map(|&it| i128::from(it)).sum::<i128>();
    let high: Vec<i64> = (0..500).map(|i| i64::MAX - i * i).collect();
    let low: Vec<i64> = high.iter().map(|it| -it).collect();
    let apart: Vec<i64> = (0..500).map(|i| if i % 3 == 0 { i64::MIN } else { i64::MAX - i }).collect();
    for row in [&high, &low, &apart, &numbers(500)] {
        let (vector, readings) = (Vector::try_from(&row[..]).unwrap(), Series::try_from(&row[..]).unwrap());
        for (lo, hi) in [(0, 500), (7, 8), (9, 9), (3, 499), (100, 104)] {
            let wanted = total(&row[lo..hi]);
            assert_eq!((vector.total(lo..hi), readings.total(lo..hi)), (Ok(wanted), Ok(wanted)));
            assert_eq!(vector.summary(lo..hi).unwrap().total(), wanted);
        }
        assert_eq!(vector.total(..501), Err(Refusal::OutOfRange { size: 500 }));
        assert_eq!(readings.total(5..501), Err(Refusal::NotKept { first: 0, size: 500 }));
        assert_eq!((vector.total(6..5), readings.total(6..5)), (Err(Refusal::BadRange), Err(Refusal::BadRange)));
    }
    // told in pieces: of 16,384 elements, of 128, of 64, and of one
    for far in [1 << 50, 1 << 57, 1 << 58, 1 << 60] {
        let row: Vec<i64> = (0..20_000).map(|i| if i % 7 == 0 { -5 } else { far - 5 }).collect();
        let (vector, readings) = (Vector::try_from(&row[..]).unwrap(), Series::try_from(&row[..]).unwrap());
        assert_eq!((vector.total(3..), readings.total(3..)), (Ok(total(&row[3..])), Ok(total(&row[3..]))));
    }
    let mut sums = Vector::of_kind(Kind::Sum, Limits::GREATEST).unwrap();
    sums.extend_from_slice(&high).unwrap();
    assert_eq!((sums.total(..), sums.total(9..8)), (Ok(total(&high)), Err(Refusal::BadRange)));
}

#[test]
fn samples_are_like_a_vec() {
    let plain: Vec<Sample> = numbers(600).into_iter().enumerate().map(|(i, value)| Sample { time: i as i64 / 3, value }).collect();
    let mut load: Samples = plain.iter().copied().collect();
    assert_eq!((load.to_vec(..).unwrap(), load.iter().len()), (plain.clone(), 600));
    load.expire(140_usize).unwrap();
    assert!(load.iter().eq(plain[140..].iter().copied()));
    assert!(load.samples(200..470).unwrap().eq(plain[200..470].iter().copied()));
    assert!(load.iter().rev().eq(plain[140..].iter().rev().copied()));
    // from both ends at once
    let (mut both, mut wanted) = (load.samples(150..590).unwrap(), plain[150..590].iter().copied());
    for turn in 0..441 {
        let pair = if turn % 4 == 0 { (both.next_back(), wanted.next_back()) } else { (both.next(), wanted.next()) };
        assert_eq!((pair.0, both.len()), (pair.1, wanted.len()));
    }
    assert_eq!(load.samples(..=600).unwrap_err(), Refusal::NotKept { first: 140, size: 600 });
    let mut clone = load.try_clone().unwrap();
    assert_eq!((clone == load, clone.values().first(), clone.values().edits()), (true, 140, 601));
    clone.write(200, 999).unwrap();
    assert!(clone != load);
    // as many values alike, at other times
    assert!(Samples::try_from_iter([(1, 5)]).unwrap() != Samples::try_from_iter([(2, 5)]).unwrap());
    let refused = load.try_extend([(200, 1), (199, 2), (201, 3)]).unwrap_err();
    assert_eq!(refused, RefusedAt { place: 1, done: 1, refusal: Refusal::Earlier { newest: 200 } });
    load.extend([Sample { time: 300, value: 4 }]);
    assert_eq!((&load).into_iter().next_back().map(|it| it.time), Some(300));
    assert_eq!(load.get(601_u32), Ok(Sample { time: 300, value: 4 }));
}

#[test]
#[should_panic(expected = "earlier than the last sample, whose time is 5")]
fn a_collection_that_is_refused_panics() {
    let _: Samples = [(5, 1), (4, 1)].into_iter().collect();
}
