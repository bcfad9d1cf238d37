//! Limits of buckets and edits.

use crate::Refusal;

/// How many buckets and edits a vector or a board may come to have.
///
/// `k` buckets have room for `8 * (2^k - 1)` elements.
///
/// ```
/// use livevec::{Limits, Refusal};
///
/// let small = Limits::new(3, 1000).unwrap();
/// assert_eq!(small.room(), 56);
/// assert_eq!(Limits::new(18, 1), Err(Refusal::BadLimits));
/// assert_eq!(Limits::GREATEST.room(), 1_048_568);
/// ```
#[derive(Clone, Copy, Debug, PartialEq, Eq, Hash)]
pub struct Limits {
    buckets: u32,
    edits: u32,
}

impl Limits {
    /// The greatest limits of a vector: 17 buckets and 16,777,215 edits.
    pub const GREATEST: Limits = Limits { buckets: 17, edits: 16_777_215 };

    /// The greatest limits of a board: 9 buckets and 16,777,215 edits.
    pub const GREATEST_BOARD: Limits = Limits { buckets: 9, edits: 16_777_215 };

    /// Refused [`BadLimits`](Refusal::BadLimits) unless `buckets` is in `1..=17` and `edits` in `1..=16_777_215`.
    pub const fn new(buckets: u32, edits: u32) -> Result<Limits, Refusal> {
        if buckets < 1 || buckets > 17 || edits < 1 || edits > 16_777_215 {
            return Err(Refusal::BadLimits);
        }
        Ok(Limits { buckets, edits })
    }

    /// The most buckets.
    pub const fn buckets(self) -> u32 {
        self.buckets
    }

    /// The most edits.
    pub const fn edits(self) -> u32 {
        self.edits
    }

    /// The most elements.
    pub const fn room(self) -> u32 {
        8 * ((1 << self.buckets) - 1)
    }
}

impl Default for Limits {
    /// The greatest limits of a vector.
    fn default() -> Limits {
        Limits::GREATEST
    }
}
