//! The C calls that compute summaries of a vector, in place or as jobs, and the handles over jobs and outcomes. Each vector's slot is full,
//! and no other call is at it, as `vector.rs` says.

use std::cell::UnsafeCell;

use super::{Count, Says, Slot, Sort, Vector, boxed, calls, livevec_free_slot, says};
use crate::Refusal;

#[repr(C)]
pub(crate) struct ClaimedJob {
    said: u32,
    found: bool,
    pub(crate) level: u32,
    pub(crate) number: u32,
    pub(crate) version: u32,
}

#[repr(C)]
pub(crate) struct Became {
    said: u32,
    pub(crate) became: u32,
    pub(crate) now: u32,
}

#[repr(C)]
struct Vetted {
    _said: u32,
    yes: bool,
}

says!(ClaimedJob, Became);

unsafe extern "C" {
    fn livevec_claim(slot: *mut Slot, job: *mut Slot) -> ClaimedJob;
    fn livevec_run(job: *mut Slot, outcome: *mut Slot) -> u32;
    fn livevec_vet(slot: *mut Slot, outcome: *mut Slot) -> Vetted;
    fn livevec_accept(slot: *mut Slot, outcome: *mut Slot) -> Became;
    fn livevec_forget(slot: *mut Slot) -> u32;
}

calls! { Vector:
    refresh(jobs: u32) -> Count<u32> = livevec_refresh;
}

impl Vector {
    pub(crate) fn forget(&mut self) {
        // SAFETY: see above.
        unsafe { livevec_forget(self.slot.get()) };
    }

    /// A job, if a node wants one.
    pub(crate) fn claim(&mut self) -> Result<Option<(ClaimedJob, Job)>, Refusal> {
        let work = boxed(Work { job: Slot::empty(), outcome: Slot::empty() })?;
        // SAFETY: see above; the job's slot is empty, and lies in its box until it is dropped.
        let did = unsafe { livevec_claim(self.at(), work.job.get()) }.answered()?;
        Ok(did.found.then_some((did, Job { work })))
    }

    pub(crate) fn vouches_for(&self, outcome: &Outcome) -> bool {
        // SAFETY: see above; the outcome's slot is full, and no other call is at it, since an outcome is not `Sync`.
        unsafe { livevec_vet(self.slot.get(), outcome.work.outcome.get()) }.yes
    }

    pub(crate) fn accept(&mut self, outcome: &Outcome) -> Result<Became, Refusal> {
        // SAFETY: see above; the outcome's slot is full, and no other call is at it, since an outcome is not `Sync`.
        unsafe { livevec_accept(self.at(), outcome.work.outcome.get()) }.answered()
    }
}

/// The slots of a job and of its outcome. At most one of them is full, and whichever it is, it is freed with the box.
struct Work {
    job: UnsafeCell<Slot>,
    outcome: UnsafeCell<Slot>,
}

impl Drop for Work {
    fn drop(&mut self) {
        // SAFETY: nothing calls these slots any more. An empty slot is left as it is.
        unsafe {
            livevec_free_slot(self.job.get(), Sort::Job);
            livevec_free_slot(self.outcome.get(), Sort::Outcome);
        }
    }
}

/// A job of C: the job's slot is full.
pub(crate) struct Job {
    work: Box<Work>,
}

// SAFETY: a job holds nothing of its vector, and any thread may run it, says the header.
unsafe impl Send for Job {}
// SAFETY: no `&self` call reaches the slots.
unsafe impl Sync for Job {}

impl Job {
    pub(crate) fn run(self) -> Outcome {
        // SAFETY: the job's slot is full and the outcome's is empty; both lie in the box, which the outcome takes over.
        let refusal = unsafe { livevec_run(self.work.job.get(), self.work.outcome.get()) };
        assert_eq!(refusal, 0, "a job that is full runs");
        Outcome { work: self.work }
    }
}

/// An outcome of C: the outcome's slot is full.
pub(crate) struct Outcome {
    work: Box<Work>,
}

// SAFETY: an outcome holds nothing of its vector, and between calls its slot may go to another thread. It is not `Sync`, by its cells:
// two vectors on two threads could be handed the same outcome.
unsafe impl Send for Outcome {}
