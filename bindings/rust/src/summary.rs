//! Summaries that travel, as bytes.

use std::fmt;

use crate::{Refusal, Values, raw};

/// What a list of elements comes to by each of the six kinds, as plain bytes that travel: between threads, processes and machines.
///
/// The summary of a list is joined of those of its parts, left and right kept, in any grouping. So shards that lie in several places are
/// summarised where they lie, and their summaries are joined by whatever carries bytes.
///
/// ```
/// use livevec::{Refusal, Summary, Vector};
///
/// # fn main() -> Result<(), Refusal> {
/// let (mut here, mut there) = (Vector::new()?, Vector::new()?);
/// here.extend_from_slice(&[5, -3])?;
/// there.extend_from_slice(&[4, -10, 2])?;
/// // the bytes go over whatever line there is
/// let sent: [u8; Summary::BYTES] = there.summary(..)?.to_bytes();
/// let all = here.summary(..)?.join(&Summary::from_bytes(&sent)?)?;
/// assert_eq!((all.count(), all.values().sum, all.values().best), (5, -2, Some(6)));
/// # Ok(())
/// # }
/// ```
///
/// A summary owns its bytes, and holds nothing of a vector. It is `Copy`, `Send` and `Sync`. Two are equal where their bytes are: of one
/// count, one table, one edit and the same values. There is no `+`, for a join may be refused, and left is not right.
#[derive(Clone, Copy, PartialEq, Eq, Hash)]
pub struct Summary {
    // sound: C gave them, or has looked at them
    bytes: raw::SummaryBytes,
}

// where the total lies among the bytes, as docs/engines.md of the repository has their layout
const TOTAL: std::ops::Range<usize> = 56..72;

impl Summary {
    /// How many bytes a summary has.
    pub const BYTES: usize = size_of::<raw::SummaryBytes>();

    pub(crate) fn of_raw(bytes: raw::SummaryBytes) -> Summary {
        Summary { bytes }
    }

    /// The summary of no elements, O(1), by the automaton of [`Vector::new`](crate::Vector::new). Joined with another on either side it changes
    /// nothing of it but that its edit is no longer told.
    pub fn empty() -> Summary {
        Summary { bytes: raw::summary_of_nothing() }
    }

    /// The same by an automaton's table, as [`Vector::with_table`](crate::Vector::with_table) has it. Refused with `BadTable` alone.
    pub fn empty_with_table(table: &[[u8; 4]; 8]) -> Result<Summary, Refusal> {
        raw::summary_of_nothing_with_table(table).map(Summary::of_raw)
    }

    /// The summary of the elements of a slice, by the automaton of [`Vector::new`](crate::Vector::new). Linear. Refused with `TooLong` alone.
    ///
    /// ```
    /// # fn main() -> Result<(), livevec::Refusal> {
    /// let summary = livevec::Summary::of(&[3, -5, 4])?;
    /// assert_eq!((summary.count(), summary.edit(), summary.values().least), (3, None, Some(-5)));
    /// # Ok(())
    /// # }
    /// ```
    pub fn of(elements: &[i64]) -> Result<Summary, Refusal> {
        Summary::empty().extended(elements)
    }

    /// The summary of these elements, and then those of a slice, in which it is linear. Its edit is not told. Refused with `TooLong` alone.
    pub fn extended(&self, elements: &[i64]) -> Result<Summary, Refusal> {
        raw::extended(&self.bytes, elements).map(Summary::of_raw)
    }

    /// The summary of these elements, and then those of `right`. O(1). Its edit is not told. Refused with `OtherTable`, `TooLong`, in this order.
    ///
    /// ```
    /// use livevec::{Refusal, Summary};
    ///
    /// # fn main() -> Result<(), Refusal> {
    /// let (left, right) = (Summary::of(&[513])?, Summary::of(&[768])?);
    /// // first y -> 2 * y + 1, then y -> 3 * y + 0; and the other way about
    /// assert_eq!(left.join(&right)?.values().affine, (6, 3));
    /// assert_eq!(right.join(&left)?.values().affine, (6, 1));
    /// let another = Summary::empty_with_table(&[[0; 4]; 8])?;
    /// assert_eq!(left.join(&another), Err(Refusal::OtherTable));
    /// # Ok(())
    /// # }
    /// ```
    pub fn join(&self, right: &Summary) -> Result<Summary, Refusal> {
        raw::joined(&self.bytes, &right.bytes).map(Summary::of_raw)
    }

    /// The values of the elements. O(1).
    pub fn values(&self) -> Values {
        Values::of_raw(self.opened().values)
    }

    /// The sum of the elements, which is exact: it never wraps, as [`Values::sum`] may. O(1).
    ///
    /// ```
    /// # fn main() -> Result<(), livevec::Refusal> {
    /// let summary = livevec::Summary::of(&[i64::MAX, i64::MAX, 5])?;
    /// assert_eq!(summary.total(), 2 * i128::from(i64::MAX) + 5);
    /// # Ok(())
    /// # }
    /// ```
    pub fn total(&self) -> i128 {
        i128::from_le_bytes(self.bytes[TOTAL].try_into().expect("there are 16 bytes"))
    }

    /// How many elements it is of. O(1).
    pub fn count(&self) -> u64 {
        self.opened().count
    }

    /// After which edit its vector had these elements; none where it does not come from one vector alone.
    pub fn edit(&self) -> Option<u32> {
        let told = self.opened();
        told.at_edit.then_some(told.edit)
    }

    /// The table of its automaton.
    pub fn table(&self) -> [[u8; 4]; 8] {
        self.opened().table
    }

    /// Its bytes, which are the same on every machine.
    pub fn to_bytes(&self) -> [u8; Summary::BYTES] {
        self.bytes
    }

    /// The summary of such bytes, from wherever they come. O(1). Refused with `OtherVersion`, also where they are not [`Summary::BYTES`] many, and
    /// then with `Damaged`.
    ///
    /// ```
    /// use livevec::{Refusal, Summary};
    ///
    /// # fn main() -> Result<(), Refusal> {
    /// let mut bytes = Summary::of(&[3, -5, 4])?.to_bytes();
    /// assert_eq!(Summary::from_bytes(&bytes)?.values().sum, 2);
    /// bytes[32] ^= 1;
    /// assert_eq!(Summary::from_bytes(&bytes), Err(Refusal::Damaged));
    /// assert_eq!(Summary::from_bytes(&bytes[1..]), Err(Refusal::OtherVersion));
    /// # Ok(())
    /// # }
    /// ```
    pub fn from_bytes(bytes: &[u8]) -> Result<Summary, Refusal> {
        let bytes = bytes.try_into().map_err(|_| Refusal::OtherVersion)?;
        raw::opened(&bytes)?;
        Ok(Summary { bytes })
    }

    fn opened(&self) -> raw::Opened {
        raw::opened(&self.bytes).expect("the bytes are sound")
    }
}

/// That of no elements, as [`Summary::empty`].
impl Default for Summary {
    fn default() -> Summary {
        Summary::empty()
    }
}

impl fmt::Debug for Summary {
    fn fmt(&self, f: &mut fmt::Formatter<'_>) -> fmt::Result {
        f.debug_struct("Summary")
            .field("count", &self.count())
            .field("edit", &self.edit())
            .field("values", &self.values())
            .finish_non_exhaustive()
    }
}
