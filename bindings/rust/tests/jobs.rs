//! Jobs and outcomes, and what may go to another thread. Expected values are worked out by hand from the rules.

mod plain;

use std::sync::{Mutex, RwLock};
use std::thread;

use livevec::{Accepted, Job, Node, Outcome, Refusal, Vector};
use plain::of;

#[test]
fn an_outcome_is_installed_held_stale_or_a_strangers() {
    let mut ours = of(&[1; 8]);
    let mut theirs = of(&[2; 8]);
    let job = ours.claim().unwrap().unwrap();
    assert_eq!((job.node(), job.version()), (Node { level: 1, number: 0 }, 8));
    assert!(ours.claim().unwrap().is_none());
    let outcome = job.run();
    assert!(ours.vouches_for(&outcome) && !theirs.vouches_for(&outcome));
    assert_eq!(theirs.deliver(&outcome), Err(Refusal::Stranger));
    assert_eq!(ours.deliver(&outcome), Ok(Accepted::Installed));
    assert_eq!(ours.reduce(..).map(|all| (all.cells, all.summaries)), Ok((0, 1)));
    assert_eq!(ours.deliver(&outcome), Ok(Accepted::Held));
    ours.write(0, 5).unwrap();
    assert_eq!(ours.deliver(&outcome), Ok(Accepted::Stale { now: 9 }));
    assert_eq!(ours.sum(..), Ok(12));
}

#[test]
fn claims_are_forgotten_and_jobs_stay_good() {
    let mut vector = of(&[1; 8]);
    let first = vector.claim().unwrap().unwrap();
    vector.forget_claims();
    let second = vector.claim().unwrap().unwrap();
    assert_eq!(vector.deliver(&second.run()), Ok(Accepted::Installed));
    assert_eq!(vector.deliver(&first.run()), Ok(Accepted::Held));
    // a job that is never run is freed, and its vector may go first
    let mut short = of(&[1; 8]);
    let orphan = short.claim().unwrap().unwrap();
    drop(short);
    drop(orphan.run());
}

#[test]
fn a_refresh_in_place_changes_no_answer() {
    let mut vector = of(&[1; 64]);
    // eight blocks, then the node above them
    assert_eq!(vector.refresh(100), 9);
    assert_eq!(vector.refresh(100), 0);
    let all = vector.reduce(0..64).unwrap();
    assert_eq!((all.values.sum, all.cells, all.summaries), (64, 0, 1));
}

#[test]
fn threads_run_jobs_and_hold_vectors() {
    let vector = Mutex::new(of(&[3; 1024]));
    let installed: u32 = thread::scope(|scope| {
        let workers: Vec<_> = (0..4)
            .map(|_| {
                scope.spawn(|| {
                    let mut installed = 0;
                    loop {
                        let Some(job) = vector.lock().unwrap().claim().unwrap() else { break installed };
                        let outcome = job.run();
                        installed += u32::from(vector.lock().unwrap().deliver(&outcome) == Ok(Accepted::Installed));
                    }
                })
            })
            .collect();
        workers.into_iter().map(|worker| worker.join().unwrap()).sum()
    });
    // a worker may find nothing while another still has the last blocks of a node: what is left is done here
    let left = vector.lock().unwrap().refresh(u32::MAX);
    assert_eq!(installed + left, 128 + 16 + 2);
    assert_eq!(vector.into_inner().unwrap().sum(..), Ok(3072));
}

#[test]
fn what_may_go_to_another_thread() {
    fn sends<T: Send>() {}
    fn shares<T: Sync>() {}
    sends::<Vector>();
    sends::<Job>();
    sends::<Outcome>();
    shares::<Job>();
    shares::<RwLock<Vector>>();
    shares::<Refusal>();
}
