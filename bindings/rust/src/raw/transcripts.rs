//! The C calls of the journal and of transcripts. What C asks of who calls is kept as `raw.rs` says.

use std::ptr;

use super::{Says, Short, SixValues, Slot, Vector, boxed, roomy, says};
use crate::{Refusal, Value};

/// An edit: `livevec_edit`.
#[repr(C)]
#[derive(Clone, Copy)]
pub(crate) struct FlatEdit {
    pub(crate) what: u32,
    pub(crate) index: u32,
    pub(crate) second: u32,
    pub(crate) value: i64,
}

#[repr(C)]
struct JournalRead {
    said: u32,
    // the last edit, which is asked for by itself
    _edit: u32,
    length: usize,
}

/// An answer to be written: `livevec_recorded`.
#[repr(C)]
#[derive(Clone, Copy)]
pub(crate) struct Recorded {
    edit: u32,
    kind: u32,
    lo: u32,
    hi: u32,
    values: SixValues,
}

impl Recorded {
    pub(crate) fn new(edit: u32, lo: u32, hi: u32, value: Value) -> Recorded {
        let mut values =
            SixValues { sum: 0, least: 0, greatest: 0, best_low: 0, best_high: 0, affine_a: 0, affine_b: 0, automaton: [0; 8], any: true };
        let mut some = |value: Option<i64>| {
            values.any = value.is_some();
            value.unwrap_or(0)
        };
        let kind = match value {
            Value::Sum(sum) => {
                values.sum = sum.cast_unsigned();
                0
            }
            Value::Least(least) => {
                values.least = some(least);
                1
            }
            Value::Greatest(greatest) => {
                values.greatest = some(greatest);
                2
            }
            Value::Best(best) => {
                values.any = best.is_some();
                let best = best.unwrap_or(0);
                (values.best_low, values.best_high) = (best.cast_unsigned() as u64, (best >> 64) as i64);
                3
            }
            Value::Affine(a, b) => {
                (values.affine_a, values.affine_b) = (a, b);
                4
            }
            Value::Automaton(automaton) => {
                values.automaton = automaton;
                5
            }
        };
        Recorded { edit, kind, lo, hi, values }
    }
}

#[repr(C)]
struct TextPut {
    said: u32,
    length: usize,
}

/// What an audit and a restoration answer: `livevec_audited`.
#[repr(C)]
pub(crate) struct Audited {
    said: Short,
    pub(crate) verdict: u32,
    pub(crate) line: u32,
    pub(crate) edits: u32,
    pub(crate) answers: u32,
}

says!(JournalRead, TextPut, Audited);

unsafe extern "C" {
    fn livevec_journal(slot: *mut Slot, from: u32, edits: *mut FlatEdit, length: usize) -> JournalRead;
    fn livevec_transcript(slot: *mut Slot, answers: *const Recorded, count: usize, text: *mut u8, room: usize) -> TextPut;
    fn livevec_audit(text: *const u8, length: usize) -> Audited;
    fn livevec_audit_front(text: *const u8, length: usize) -> Audited;
    fn livevec_restore(slot: *mut Slot, buckets: u32, edits: u32, text: *const u8, length: usize) -> Audited;
    fn livevec_restore_of(slot: *mut Slot, kind: u32, buckets: u32, edits: u32, text: *const u8, length: usize) -> Audited;
}

pub(crate) fn audit(text: &[u8]) -> Audited {
    // SAFETY: so many bytes are read from a slice that has them, during the call alone.
    unsafe { livevec_audit(text.as_ptr(), text.len()) }
}

pub(crate) fn audit_front(text: &[u8]) -> Audited {
    // SAFETY: see above.
    unsafe { livevec_audit_front(text.as_ptr(), text.len()) }
}

impl Vector {
    /// The edits behind the first `from`, at most so many.
    pub(crate) fn journal(&self, from: u32, most: usize) -> Result<Vec<FlatEdit>, Refusal> {
        let mut edits = roomy(most)?;
        // SAFETY: the slot is full, and no other call is at it, as for each call of a vector; at most `most` edits are written, for which
        // there is room, and as many as are told were.
        unsafe {
            let told = livevec_journal(self.at(), from, edits.as_mut_ptr(), most).answered()?;
            edits.set_len(told.length);
        }
        Ok(edits)
    }

    /// The text of the journal and of answers.
    pub(crate) fn transcript(&self, answers: &[Recorded]) -> Result<Vec<u8>, Refusal> {
        // SAFETY: as above; the answers are read during the call alone, and with no room nothing is written.
        let wanted = unsafe { livevec_transcript(self.slot.get(), answers.as_ptr(), answers.len(), ptr::null_mut(), 0) };
        // a buffer shorter than the text: so it always is
        if wanted.said != 103 {
            wanted.said.answered()?;
        }
        let mut text = roomy(wanted.length)?;
        // SAFETY: as above; at most so many bytes are written as there is room for, and where it isn't refused so many were.
        unsafe {
            let told = livevec_transcript(self.at(), answers.as_ptr(), answers.len(), text.as_mut_ptr(), wanted.length).answered()?;
            text.set_len(told.length);
        }
        Ok(text)
    }

    /// A vector with the edits of a front, and what was told of it; or what was told of why there is none.
    pub(crate) fn restored(kind: Option<u32>, buckets: u32, edits: u32, text: &[u8]) -> Result<Result<Vector, Audited>, Refusal> {
        let slot = boxed(Slot::empty())?;
        // SAFETY: the slot is empty, and lies in its box until it is dropped; the text is read during the call alone.
        let told = unsafe {
            match kind {
                None => livevec_restore(slot.get(), buckets, edits, text.as_ptr(), text.len()),
                Some(kind) => livevec_restore_of(slot.get(), kind, buckets, edits, text.as_ptr(), text.len()),
            }
        };
        // an empty slot owns nothing
        Ok(if told.refusal().is_none() { Ok(Vector { slot }) } else { Err(told) })
    }
}
