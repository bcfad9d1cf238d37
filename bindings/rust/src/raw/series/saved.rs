//! The C calls that save a series, or samples, as bytes, and load them. What C asks of who calls is kept as `raw.rs` says.

use super::{Series, Slot};
use crate::Refusal;
use crate::raw::{Says, array_calls, buffer_calls, counts};

unsafe extern "C" {
    fn livevec_series_begin_load(slot: *mut Slot) -> u32;
    fn livevec_series_end_load(slot: *mut Slot) -> u32;
    fn livevec_samples_begin_load(slot: *mut Slot) -> u32;
    fn livevec_samples_end_load(slot: *mut Slot) -> u32;
}

counts! { Series, u64:
    saved_length = livevec_series_saved_length;
}
buffer_calls! { Series, u64:
    /// The saved bytes from a place on.
    save(from: u64; u8) = livevec_series_save;
}
array_calls! { Series:
    /// The next bytes of one that is loaded.
    load(bytes: u8) -> u32 = livevec_series_load;
}

/// A series of C, or samples, while they are loaded: a handle whose slot holds what was given so far.
pub(crate) struct Loading {
    whole: Series,
    timed: bool,
}

impl Loading {
    /// Begins to load a series, or samples.
    pub(crate) fn new(timed: bool) -> Result<Loading, Refusal> {
        let begin = if timed { livevec_samples_begin_load } else { livevec_series_begin_load };
        // SAFETY: the slot is as `filled` says. Samples are a series and nothing else, as C lays them out.
        let (slot, _) = Slot::filled(|slot| unsafe { begin(slot) })?;
        Ok(Loading { whole: Series { slot }, timed })
    }

    pub(crate) fn give(&mut self, bytes: &[u8]) -> Result<(), Refusal> {
        self.whole.load(bytes).map(drop)
    }

    /// What the bytes are of, where they are those of one. Else the slot is empty then, and its handle is dropped.
    pub(crate) fn end(self) -> Result<Series, Refusal> {
        let end = if self.timed { livevec_samples_end_load } else { livevec_series_end_load };
        // SAFETY: the slot holds what is loaded.
        unsafe { end(self.whole.at()) }.answered()?;
        Ok(self.whole)
    }
}
