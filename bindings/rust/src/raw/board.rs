//! The C calls of boards and seats, and handles over them.

use std::mem::ManuallyDrop;
use std::sync::{Arc, Mutex, MutexGuard, PoisonError};

use super::{Boxed, Count, Edited, Element, Reduced, Says, Short, Slot, Sort, calls, counts, livevec_free_slot, says};
use crate::Refusal;

#[repr(C)]
pub(crate) struct Renewed {
    said: Short,
    pub(crate) edit: u32,
    pub(crate) version: u32,
}

says!(Renewed);

unsafe extern "C" {
    fn livevec_board_new(slot: *mut Slot, kind: u32, buckets: u32, edits: u32, seats: u32) -> u32;
    fn livevec_board_sit(board: *mut Slot, seat: *mut Slot) -> u32;
    fn livevec_board_take_back(board: *mut Slot, seat: *mut Slot) -> u32;
    fn livevec_board_close(board: *mut Slot) -> Count<u32>;
    fn livevec_closed_read(board: *mut Slot, buffer: *mut i64, room: usize, count: *mut u32) -> u32;
}

/// The slots of the seats of a board that were dropped. Each goes back before the board's next call: a drop may be on any thread, and the
/// board's slot serves one call at a time.
type Dropped = Arc<Mutex<Vec<SeatSlot>>>;

/// A board of C, open or closed. Its slot is full from `new` to the drop.
pub(crate) struct Board {
    slot: Boxed,
    dropped: Dropped,
}

// SAFETY: between calls a slot may go to another thread, says the header. A `Board` that is sent is owned, so no call of it is under way;
// what goes on at its seats meanwhile is at slots of their own. It is not `Sync`, by its cell.
unsafe impl Send for Board {}

impl Board {
    pub(crate) fn new(kind: u32, buckets: u32, edits: u32, seats: u32) -> Result<Board, Refusal> {
        // SAFETY: the slot is as `filled` says.
        let (slot, _) = Slot::filled(|slot| unsafe { livevec_board_new(slot, kind, buckets, edits, seats) })?;
        let board = Board { slot, dropped: Dropped::default() };
        // room for all seats, so that the drop of one takes no memory
        let room = held(&board.dropped).try_reserve_exact(seats as usize);
        room.map_err(|_| Refusal::NoMemory)?;
        Ok(board)
    }

    // For each call below: the slot is full, since `self` was made, and no other call is at it, since `self` is not `Sync` and C never
    // calls back. Which calls an open or a closed board answers C tells by refusal.

    /// Takes back the seats that were dropped.
    fn gather(&mut self) {
        for seat in held(&self.dropped).drain(..) {
            // SAFETY: see above; the seat's slot is full, and nothing else uses it any more.
            unsafe { livevec_board_take_back(self.slot.get(), seat.0.get()) };
        }
    }

    pub(crate) fn sit(&mut self) -> Result<Seat, Refusal> {
        self.gather();
        // SAFETY: see above; the seat's slot is as `filled` says.
        let (slot, _) = Slot::filled(|seat| unsafe { livevec_board_sit(self.at(), seat) })?;
        Ok(Seat { slot: ManuallyDrop::new(SeatSlot(slot)), dropped: self.dropped.clone() })
    }

    /// Closes the board, and tells how many edits were accepted.
    pub(crate) fn close(&mut self) -> Result<u32, Refusal> {
        self.gather();
        // SAFETY: see above.
        Ok(unsafe { livevec_board_close(self.at()) }.answered()?.value)
    }

    /// Fills the front of a buffer with the elements of the closed board, and tells how many they are.
    pub(crate) fn closed_read(&self, buffer: &mut [i64]) -> Result<usize, Refusal> {
        let mut count = 0;
        // SAFETY: see above; at most so many elements are written as the buffer has, and the count is written to during the call.
        let refusal = unsafe { livevec_closed_read(self.slot.get(), buffer.as_mut_ptr(), buffer.len(), &mut count) };
        Short { number: refusal, detail: count }.answered()?;
        Ok(count as usize)
    }

    fn at(&self) -> *mut Slot {
        self.slot.get()
    }
}

counts! { Board, u32:
    closed_size = livevec_closed_size;
}
calls! { Board:
    closed_get(index: u32) -> Element<u32> = livevec_closed_get;
}

impl Drop for Board {
    fn drop(&mut self) {
        // SAFETY: the slot is full, and nothing calls it any more. Seats that are out stay good, says the header.
        unsafe { livevec_free_slot(self.slot.get(), Sort::Board) };
    }
}

/// What the lock holds, also where a thread panicked that had it: a list of slots is never left half changed.
fn held(dropped: &Dropped) -> MutexGuard<'_, Vec<SeatSlot>> {
    dropped.lock().unwrap_or_else(PoisonError::into_inner)
}

/// The slot of a seat, which is full until the board has the seat back. Else the seat is freed.
struct SeatSlot(Boxed);

// SAFETY: between calls a slot may go to another thread, says the header. One that is sent is owned, so no call of it is under way.
unsafe impl Send for SeatSlot {}

impl Drop for SeatSlot {
    fn drop(&mut self) {
        // SAFETY: nothing calls the slot any more; where it is empty, C refuses.
        unsafe { livevec_free_slot(self.0.get(), Sort::Seat) };
    }
}

/// A seat of C. Its slot is full from `sit` to the drop, which hands it to the board.
pub(crate) struct Seat {
    slot: ManuallyDrop<SeatSlot>,
    dropped: Dropped,
}

impl Seat {
    fn at(&self) -> *mut Slot {
        self.slot.0.get()
    }
}

calls! { Seat:
    push(value: i64, tries: u32) -> Edited<u32> = livevec_seat_push;
    pop(tries: u32) -> Edited<u32> = livevec_seat_pop;
    write(index: u32, value: i64, tries: u32) -> Edited<u32> = livevec_seat_write;
    get(index: u32) -> Element<u32> = livevec_seat_get;
    reduce(lo: u32, hi: u32) -> Reduced = livevec_seat_reduce;
    refresh(block: u32) -> Renewed = livevec_seat_refresh;
}
counts! { Seat, u32:
    size = livevec_seat_size;
}

impl Drop for Seat {
    fn drop(&mut self) {
        // SAFETY: the slot is taken once, here, and nothing uses the seat any more.
        let slot = unsafe { ManuallyDrop::take(&mut self.slot) };
        held(&self.dropped).push(slot);
    }
}
