//! Jobs of many blocks: late ones, those of threads that share the work, and the workers of a shared vector.

use std::sync::Mutex;
use std::thread;
use std::time::Duration;

use livevec::{Shared, Taken, Vector};

const SIZE: i64 = 100_004;

fn filled() -> Vector {
    let elements: Vec<i64> = (0..SIZE).collect();
    Vector::try_from(&elements[..]).unwrap()
}

#[test]
fn batches_come_late() {
    let mut vector = filled();
    let blocks = vector.len() / 8;
    let first = vector.copy_blocks(0, u32::MAX).unwrap().unwrap();
    let again = vector.copy_blocks(0, u32::MAX).unwrap().unwrap();
    assert_eq!((first.len(), format!("{first:?}")), (blocks, format!("Batch {{ len: {blocks}, .. }}")));
    vector.write(17, 0).unwrap();
    vector.truncate(SIZE as u32 - 5).unwrap();
    let taken = vector.take_in(first.run().unwrap()).unwrap();
    assert_eq!(taken, Taken { installed: blocks - 2, stale: 2, ..Taken::default() });
    let taken = vector.take_in(again.run().unwrap()).unwrap();
    assert_eq!(taken, Taken { held: blocks - 2, stale: 2, ..Taken::default() });
    assert_eq!(vector.copy_blocks(3, u32::MAX).unwrap().map(|it| it.len()), None);
    assert_eq!(vector.copy_blocks(0, 3).unwrap().map(|it| it.len()), Some(1));
    let wanted: i64 = (0..SIZE - 5).sum::<i64>() - 17;
    assert_eq!(vector.reduce(..).unwrap().values.sum, wanted);
    let mut other = Vector::try_from([5; 100]).unwrap();
    let strange = filled().copy_blocks(0, 12).unwrap().unwrap().run().unwrap();
    assert_eq!(other.take_in(strange).unwrap(), Taken { strangers: 12, ..Taken::default() });
    assert_eq!(other.sum(..), Ok(500));
}

#[test]
fn threads_share_the_work_by_ranges_apart() {
    let vector = Mutex::new((filled(), 0));
    for round in 0..3 {
        vector.lock().unwrap().1 = 0;
        thread::scope(|scope| {
            for _ in 0..4 {
                scope.spawn(|| {
                    loop {
                        let mut held = vector.lock().unwrap();
                        let first = held.1;
                        held.1 += 256;
                        let Some(batch) = held.0.copy_blocks(first, 256).unwrap() else { break };
                        // its block is stale by then
                        held.0.write(first * 8, round).unwrap();
                        drop(held);
                        let outcomes = batch.run().unwrap();
                        assert_eq!(vector.lock().unwrap().0.take_in(outcomes).unwrap().stale, 1);
                    }
                });
            }
        });
        let held = vector.lock().unwrap();
        let wanted: i64 = (0..SIZE).map(|i| if i % 2048 == 0 { round } else { i }).sum();
        assert_eq!(held.0.reduce(..).unwrap().values.sum, wanted);
    }
}

#[test]
fn four_workers_refresh_all_again_and_again() {
    let shared = Shared::new(filled());
    shared.start_workers(4).unwrap();
    for round in 1..6 {
        let wanted = (0..SIZE).sum::<i64>() + (1..round).map(|it| it * SIZE).sum::<i64>();
        // one summary has 32,768 elements once all below it are there, and nothing keeps them but the workers
        let mut tries = 0;
        while shared.reduce(..3 * 32_768).unwrap().summaries > 3 {
            tries += 1;
            assert!(tries < 10_000, "the workers compute");
            thread::sleep(Duration::from_millis(2));
        }
        assert_eq!(shared.reduce(..).unwrap().values.sum, wanted);
        // while they work, too
        let (indices, values): (Vec<u32>, Vec<i64>) = (0..SIZE).map(|i| (i as u32, i + (1..=round).sum::<i64>())).unzip();
        shared.write_many(&indices, &values).unwrap();
        shared.write(9, 9 + (1..=round).sum::<i64>()).unwrap();
    }
    shared.stop_workers().unwrap();
    assert_eq!(shared.close().unwrap().len() as i64, SIZE);
}
