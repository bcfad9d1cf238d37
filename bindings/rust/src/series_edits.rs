//! What the edits of a series tell.

/// An accepted push.
#[derive(Clone, Copy, Debug, PartialEq, Eq, Hash)]
pub struct Pushed {
    /// The number of this edit.
    pub edit: u64,
    /// The index under which the element stands.
    pub index: usize,
}

/// An accepted pop.
#[derive(Clone, Copy, Debug, PartialEq, Eq, Hash)]
pub struct Popped {
    /// The number of this edit.
    pub edit: u64,
    /// The element that stood at the end.
    pub value: i64,
}

/// An accepted write.
#[derive(Clone, Copy, Debug, PartialEq, Eq, Hash)]
pub struct Written {
    /// The number of this edit.
    pub edit: u64,
    /// The element that stood there.
    pub before: i64,
}

/// An accepted swap.
#[derive(Clone, Copy, Debug, PartialEq, Eq, Hash)]
pub struct Swapped {
    /// The number of this edit.
    pub edit: u64,
    /// The element that stands under the first index now.
    pub first: i64,
}

/// An accepted truncate or expire.
#[derive(Clone, Copy, Debug, PartialEq, Eq, Hash)]
pub struct Dropped {
    /// The number of this edit.
    pub edit: u64,
    /// How many elements were dropped.
    pub dropped: usize,
}
