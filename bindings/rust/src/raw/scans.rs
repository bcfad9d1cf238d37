//! The C call that scans a vector.

use std::ffi::c_void;

use super::{ALL_SIX, Says, Scanned, SixValues, Slot, Vector, cells, roomy};
use crate::{Column, Refusal};

unsafe extern "C" {
    fn livevec_scan(slot: *mut Slot, kind: u32, inclusive: bool, lo: u32, hi: u32, column: *mut c_void, length: usize) -> Scanned<u32>;
}

impl Vector {
    /// Fills the front of a column with the running values of a range by a kind.
    pub(crate) fn scan_into<K: Column>(&self, inclusive: bool, lo: u32, hi: u32, column: &mut [K::Cell]) -> Result<Scanned<u32>, Refusal> {
        let length = column.len();
        // SAFETY: as for each call of `calls.rs`; at most so many cells are written as the column has.
        unsafe { livevec_scan(self.at(), K::KIND as u32, inclusive, lo, hi, cells::<K>(column), length) }.answered()
    }

    /// The edit and the values of a scan.
    pub(crate) fn scan(&self, lo: u32, hi: u32, inclusive: bool) -> Result<(u32, Vec<SixValues>), Refusal> {
        // A range that is refused takes no buffer: C looks at the range before it looks at the length.
        let room = if lo <= hi && hi <= self.size() { (hi - lo) as usize } else { 0 };
        let mut values = roomy::<SixValues>(room.max(1))?;
        // SAFETY: as for each call of `calls.rs`; the buffer has the room that is told.
        let did = unsafe { livevec_scan(self.at(), ALL_SIX, inclusive, lo, hi, values.as_mut_ptr().cast(), room) }.answered()?;
        let length = did.length as usize;
        assert!(length <= room);
        // SAFETY: C has written `length` values, and the buffer has room for them.
        unsafe { values.set_len(length) };
        Ok((did.edit, values))
    }
}
