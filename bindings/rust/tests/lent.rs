//! Elements that are lent where they lie, beside a plain vector.

use livevec::{Refusal, Samples, Series};

#[test]
fn ranges_are_lent_as_they_stand() {
    let row: Vec<i64> = (0..70_000).map(|i| i * i - 12_345 * i).collect();
    let mut series = Series::new().unwrap();
    series.extend_from_slice(&row).unwrap();
    series.expire(40_003).unwrap();
    {
        let lent = series.lend(50_000..).unwrap();
        assert_eq!((&lent[..], lent.edit()), (&row[50_000..], 70_001));
        std::thread::scope(|scope| {
            for (part, same) in lent.chunks(5_000).zip(row[50_000..].chunks(5_000)) {
                scope.spawn(move || assert_eq!(part, same));
            }
        });
    }
    assert!(series.lend(50_000..50_000).unwrap().is_empty());
    assert_eq!(series.lend(..).unwrap().len(), 29_997);
    assert_eq!(series.write(50_000, 7).unwrap().before, row[50_000]);
    assert_eq!(series.lend(50_000..50_002).unwrap()[..], [7, row[50_001]]);
}

#[test]
fn what_is_refused_is_not_lent() {
    let mut series = Series::new().unwrap();
    series.extend_from_slice(&[1, 2, 3]).unwrap();
    series.expire(1).unwrap();
    assert_eq!(series.lend(2..1).unwrap_err(), Refusal::BadRange);
    assert_eq!(series.lend(0..2).unwrap_err(), Refusal::NotKept { first: 1, size: 3 });
    assert_eq!(series.push(4).unwrap().index, 3);
}

#[test]
fn samples_lend_their_values() {
    let mut samples = Samples::new().unwrap();
    samples.push_many(&[1, 3, 3], &[50, 70, 60]).unwrap();
    assert_eq!(samples.lend(1..).unwrap()[..], [70, 60]);
    assert_eq!(format!("{:?}", samples.lend(..).unwrap()), "[50, 70, 60]");
    assert_eq!(samples.push(4, 80).unwrap().index, 3);
}
