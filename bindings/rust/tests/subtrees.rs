//! Subtrees: late ones, those of other vectors, and workers of a shared vector beside a writer.

use std::thread;
use std::time::Duration;

use livevec::{Shared, Vector};

const SIZE: usize = 100_000;

/// Element `i` of lists that rise and fall.
fn wave(i: i64) -> i64 {
    i * 7919 % 2003 - 1000
}

fn waves(size: usize) -> Vec<i64> {
    (0..size as i64).map(wave).collect()
}

/// The values of a range are those of plain folds of a list.
fn assert_like(told: &livevec::Reduced, elements: &[i64]) {
    let best =
        elements.iter().fold((0, 0), |(best, run), it| (i128::max(best, run + i128::from(*it)), i128::max(0, run + i128::from(*it)))).0;
    assert_eq!(told.values.sum, elements.iter().sum::<i64>());
    assert_eq!((told.values.least, told.values.greatest), (elements.iter().min().copied(), elements.iter().max().copied()));
    assert_eq!(told.values.best, Some(best));
}

#[test]
fn subtrees_come_late() {
    let many = waves(9000);
    let (mut vector, mut other) = (Vector::try_from(&many[..]).unwrap(), Vector::try_from([5; 5000]).unwrap());
    assert!(vector.copy_subtree(2).unwrap().is_none() && vector.copy_subtree(u32::MAX).unwrap().is_none());
    let first = vector.copy_subtree(0).unwrap().unwrap();
    assert_eq!((first.number(), format!("{first:?}")), (0, "Subtree { number: 0, .. }".to_owned()));
    let mut first = first.run().unwrap();
    let mut late = vector.copy_subtree(1).unwrap().unwrap().run().unwrap();
    assert_eq!((late.number(), format!("{late:?}")), (1, "SubtreeOutcome { number: 1, .. }".to_owned()));
    assert_eq!(other.take_subtree(&mut first), Ok(false));
    assert_eq!((other.reduce(..4096).unwrap().summaries, other.sum(..)), (0, Ok(25000)));
    assert_eq!(vector.take_subtree(&mut first), Ok(true));
    assert_eq!(vector.take_subtree(&mut first), Ok(false));
    assert!(vector.copy_subtree(0).unwrap().is_none() && vector.copy_blocks(0, 512).unwrap().is_none());
    for range in [0..4096, 0..512, 64..128, 4088..4096] {
        let told = vector.reduce(range.start..range.end).unwrap();
        assert_eq!((told.cells, told.summaries), (0, 1));
        assert_like(&told, &many[range.start as usize..range.end as usize]);
    }
    // a write comes between, and is made good by another
    vector.write(5000, -1).unwrap();
    assert_eq!(vector.take_subtree(&mut late), Ok(false));
    assert_eq!(vector.reduce(4096..8192).unwrap().summaries, 0);
    vector.write(5000, many[5000]).unwrap();
    assert_eq!(vector.take_subtree(&mut late), Ok(true));
    assert_eq!(vector.reduce(4096..8192).unwrap().summaries, 1);
    assert_like(&vector.reduce(4096..8192).unwrap(), &many[4096..8192]);
    assert_like(&vector.reduce(..).unwrap(), &many);
    // a subtree of which the last block is there is gone over by its blocks
    vector.write(0, 1).unwrap();
    assert!(vector.copy_subtree(0).unwrap().is_none());
    assert_eq!(vector.copy_blocks(0, 512).unwrap().map(|it| it.len()), Some(1));
}

/// Whether each whole node of each level is read as one summary.
fn is_all_fresh(shared: &Shared) -> bool {
    let size = SIZE as u32;
    let mut wides = (1..=5).map(|level| 8_u32.pow(level));
    wides.all(|wide| {
        (0..size / wide).all(|number| {
            let told = shared.reduce(number * wide..(number + 1) * wide).unwrap();
            told.cells == 0 && told.summaries == 1
        })
    })
}

#[test]
fn workers_get_on_beside_a_writer() {
    let mut many = waves(SIZE);
    let shared = Shared::new(Vector::try_from(&many[..]).unwrap());
    shared.start_workers(4).unwrap();
    for i in 0..60_000 {
        let index = i * 7919 % SIZE;
        many[index] = wave(i as i64) + i as i64;
        shared.write(index as u32, many[index]).unwrap();
        if i == 30_000 {
            shared.stop_workers().unwrap();
            shared.start_workers(4).unwrap();
        }
    }
    // they become idle, and have left nothing out
    let mut tries = 0;
    while !is_all_fresh(&shared) {
        tries += 1;
        assert!(tries < 10_000, "the workers compute");
        thread::sleep(Duration::from_millis(2));
    }
    let told = shared.reduce(..).unwrap();
    assert_eq!(told.cells, 0);
    assert_like(&told, &many);
    assert_eq!(shared.close().unwrap().refresh(u32::MAX), 0);
}
