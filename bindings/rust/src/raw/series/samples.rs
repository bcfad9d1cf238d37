//! The C calls at samples. What C asks of who calls is kept as `raw.rs` says. `livevec_samples` has a series and nothing
//! else, so that a slot of samples is one of a series. Where the slot holds a series, and no samples, C refuses them all.

use super::{Edited, Series, Slot};
use crate::raw::answers::{Long, SeriesReduced};
use crate::raw::{Many, Says, buffer_calls, calls, says};
use crate::{Refusal, RefusedAt};

#[repr(C)]
pub(crate) struct Sample {
    said: Long,
    pub(crate) time: i64,
    pub(crate) value: i64,
}

/// The indices of a window. The last edit is asked for by itself.
#[repr(C)]
pub(crate) struct Window {
    said: u32,
    _edit: u64,
    pub(crate) lo: u64,
    pub(crate) hi: u64,
}

says!(Sample, Window);

unsafe extern "C" {
    fn livevec_samples_new(slot: *mut Slot) -> u32;
    fn livevec_samples_push(slot: *mut Slot, time: i64, value: i64) -> Edited<u64>;
    fn livevec_samples_push_many(slot: *mut Slot, times: *const i64, values: *const i64, length: usize) -> Many<u64>;
}

const EARLIER: u32 = 21;

calls! { Series:
    expire_before(time: i64) -> Edited<u64> = livevec_samples_expire_before;
    sample(index: u64) -> Sample = livevec_samples_get;
    between(since: i64, until: i64) -> Window = livevec_samples_between;
    /// Samples that are there have one.
    last(span: u64) -> Window = livevec_samples_last;
    value_between(kind: u32, since: i64, until: i64) -> SeriesReduced = livevec_samples_value;
    value_of_last(kind: u32, span: u64) -> SeriesReduced = livevec_samples_value_of_last;
}
buffer_calls! { Series, u64:
    /// The times of a range.
    times(lo: u64, hi: u64; i64) = livevec_samples_times;
}

impl Series {
    /// Samples: a handle whose slot is full of them from here to the drop.
    pub(crate) fn new_samples() -> Result<Series, Refusal> {
        // SAFETY: the slot is as `filled` says.
        let (slot, _) = Slot::filled(|slot| unsafe { livevec_samples_new(slot) })?;
        Ok(Series { slot })
    }

    pub(crate) fn push_sample(&self, time: i64, value: i64) -> Result<Edited<u64>, Refusal> {
        // SAFETY: as for each call of `calls.rs`.
        let did = unsafe { livevec_samples_push(self.at(), time, value) };
        if did.said.number == EARLIER { Err(Refusal::Earlier { newest: did.value }) } else { did.answered() }
    }

    /// Pushes so many values with as many times, up to the first that is refused.
    pub(crate) fn push_samples(&self, times: &[i64], values: &[i64]) -> Result<u64, RefusedAt> {
        debug_assert_eq!(times.len(), values.len());
        // SAFETY: as for each call of `calls.rs`; so many times and values are read from slices that have them.
        let did = unsafe { livevec_samples_push_many(self.at(), times.as_ptr(), values.as_ptr(), times.len()) };
        if did.said.number != EARLIER {
            return did.all();
        }
        // there is a last sample, since another one is earlier
        let newest = self.sample(self.size() - 1).map_err(RefusedAt::of_all)?.time;
        Err(RefusedAt { place: did.place, done: did.done, refusal: Refusal::Earlier { newest } })
    }
}
