//! The C calls of jobs of many blocks and of subtrees, and a handle over them. What C asks of who calls is kept as `raw.rs` says.

use super::{Boxed, Count, Says, Slot, Sort, Vector, livevec_free_slot, says};
use crate::Refusal;

#[repr(C)]
pub(crate) struct Taken {
    said: u32,
    pub(crate) installed: u64,
    pub(crate) held: u64,
    pub(crate) stale: u64,
    pub(crate) strangers: u64,
}

says!(Taken);

unsafe extern "C" {
    fn livevec_blocks(slot: *mut Slot, batch: *mut Slot, first: u32, limit: u32) -> Count<u32>;
    fn livevec_run_blocks(batch: *mut Slot) -> u32;
    fn livevec_accept_blocks(slot: *mut Slot, batch: *mut Slot) -> Taken;
    fn livevec_subtree(slot: *mut Slot, batch: *mut Slot, number: u32) -> Count<u32>;
    fn livevec_accept_subtree(slot: *mut Slot, batch: *mut Slot) -> Count<u32>;
}

impl Vector {
    /// Jobs of blocks, and how many they are, where any of them wants one.
    pub(crate) fn copy_blocks(&self, first: u32, limit: u32) -> Result<Option<(u32, Batch)>, Refusal> {
        // SAFETY: the vector's slot is full, and no call is at it but reads, as this is one; the batch's is as `filled` says.
        let (slot, jobs) = Slot::filled(|batch| unsafe { livevec_blocks(self.at(), batch, first, limit) })?;
        Ok((jobs.value > 0).then_some((jobs.value, Batch { slot })))
    }

    /// Takes in what a batch that was run gave.
    pub(crate) fn accept_blocks(&mut self, batch: Batch) -> Result<Taken, Refusal> {
        // SAFETY: as above; the batch is owned, so that no other call is at its slot.
        unsafe { livevec_accept_blocks(self.at(), batch.slot.get()) }.answered()
    }

    /// The job of a subtree, where it is whole and worth one.
    pub(crate) fn copy_subtree(&self, number: u32) -> Result<Option<Batch>, Refusal> {
        // SAFETY: as for blocks.
        let (slot, summaries) = Slot::filled(|batch| unsafe { livevec_subtree(self.at(), batch, number) })?;
        Ok((summaries.value > 0).then_some(Batch { slot }))
    }

    /// Takes in what a subtree that was run gave, and tells how many summaries are kept of it. Its slot stays full.
    pub(crate) fn accept_subtree(&mut self, subtree: &mut Batch) -> Result<u32, Refusal> {
        // SAFETY: as above; the subtree is borrowed alone, so that no other call is at its slot.
        Ok(unsafe { livevec_accept_subtree(self.at(), subtree.slot.get()) }.answered()?.value)
    }
}

/// A batch of C, or a subtree: the slot of the one is full until it is handed in, that of the other until it is dropped.
pub(crate) struct Batch {
    slot: Boxed,
}

// SAFETY: a batch holds nothing of its vector, and any thread may run it, says the header.
unsafe impl Send for Batch {}
// SAFETY: no `&self` call reaches the slot.
unsafe impl Sync for Batch {}

impl Batch {
    pub(crate) fn run(&mut self) -> Result<(), Refusal> {
        // SAFETY: the slot is full and lies in its box; `self` is borrowed alone.
        unsafe { livevec_run_blocks(self.slot.get()) }.answered().map(drop)
    }
}

impl Drop for Batch {
    fn drop(&mut self) {
        // SAFETY: nothing calls the slot any more. An empty one is left as it is.
        unsafe { livevec_free_slot(self.slot.get(), Sort::Batch) };
    }
}
