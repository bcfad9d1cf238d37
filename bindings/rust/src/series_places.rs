//! Where in a range of a [`Series`] something is.

use crate::places::is_searched;
use crate::{Indices, Series};

is_searched!(
    Series,
    u64,
    "The first search by a kind makes its tree, in O(n). Refused with `BadRange`, `NotKept`, `NoMemory`, in this order.",
    |series, range| series.ends(range)
);
