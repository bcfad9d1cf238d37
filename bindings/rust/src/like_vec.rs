//! What a vector has as `std`'s `Vec` has it, where it can: made of elements, emptied, cloned, compared.

use crate::{Queries, Refusal, Samples, Series, Truncated, Vector};

/// Made of elements, and into them again.
impl Vector {
    /// A vector of the greatest limits with what an iterator gives. Linear. Refused with `Full`, `Worn`, `NoMemory`, where nothing is left. It never
    /// panics; `collect` does where this is refused.
    ///
    /// ```
    /// use livevec::{Refusal, Vector};
    ///
    /// # fn main() -> Result<(), Refusal> {
    /// let squares = Vector::try_from_iter((1..=4).map(|x| x * x))?;
    /// assert_eq!(squares, [1, 4, 9, 16]);
    /// assert_eq!(Vector::try_from_iter(std::iter::repeat(0)).unwrap_err(), Refusal::Full);
    /// # Ok(())
    /// # }
    /// ```
    pub fn try_from_iter(values: impl IntoIterator<Item = i64>) -> Result<Vector, Refusal> {
        let mut made = Vector::new()?;
        made.try_extend(values)?;
        Ok(made)
    }

    /// A copy of all elements. Linear. Refused with `NoMemory` alone.
    pub fn to_vec(&self) -> Result<Vec<i64>, Refusal> {
        let length = self.len();
        let mut elements = Vec::new();
        elements.try_reserve_exact(length).map_err(|_| Refusal::NoMemory)?;
        elements.resize(length, 0);
        self.read_into(.., &mut elements)?;
        Ok(elements)
    }

    /// A vector of its own with the same elements, limits, table and kind. Linear. Refused with `NoMemory` alone.
    ///
    /// Its edits are the pushes of its elements, so that their numbers begin anew: a vector that is worn goes on as its clone.
    ///
    /// ```
    /// use livevec::{Limits, Refusal, Vector};
    ///
    /// # fn main() -> Result<(), Refusal> {
    /// let mut prices = Vector::with_limits(Limits::new(1, 3)?)?;
    /// prices.extend_from_slice(&[300, 120])?;
    /// prices.write(0, 180)?;
    /// assert_eq!(prices.push(500), Err(Refusal::Worn));
    /// let mut clone = prices.try_clone()?;
    /// assert_eq!((clone == prices, clone.edits()), (true, 2));
    /// clone.push(500)?;
    /// assert_eq!((clone.len(), prices.len()), (3, 2));
    /// # Ok(())
    /// # }
    /// ```
    pub fn try_clone(&self) -> Result<Vector, Refusal> {
        let mut made = match (&self.table, self.only) {
            (Some(table), _) => Vector::with_table(self.limits, table)?,
            (None, Some(kind)) => Vector::of_kind(kind, self.limits)?,
            (None, None) => Vector::with_limits(self.limits)?,
        };
        made.extend_from_slice(&self.to_vec()?)?;
        Ok(made)
    }

    /// Drops all elements, by one edit. O(log n) amortised. Refused with `Worn`, `NoMemory`, in this order. It gives no memory back.
    pub fn clear(&mut self) -> Result<Truncated, Refusal> {
        self.truncate(0)
    }
}

/// What `Vec` has and panics, where a call of the type's own says why it is refused; and what compares elements.
macro_rules! is_like_vec {
    ($of:ident, $equal:literal) => {
        /// Panics if an element is refused, or there is no memory, as `Vec` does. `try_extend` never panics.
        impl Extend<i64> for $of {
            fn extend<I: IntoIterator<Item = i64>>(&mut self, values: I) {
                if let Err(refused) = self.try_extend(values) {
                    panic!("{refused}");
                }
            }
        }

        /// Panics if an element is refused, or there is no memory, as `Vec` does. `extend_from_slice` never panics.
        impl<'a> Extend<&'a i64> for $of {
            fn extend<I: IntoIterator<Item = &'a i64>>(&mut self, values: I) {
                self.extend(values.into_iter().copied());
            }
        }

        /// Panics if an element is refused, or there is no memory, as `Vec` does. `try_from_iter` never panics.
        impl FromIterator<i64> for $of {
            fn from_iter<I: IntoIterator<Item = i64>>(values: I) -> $of {
                $of::try_from_iter(values).unwrap_or_else(|refusal| panic!("{refusal}"))
            }
        }

        /// Panics as that of `i64`. `TryFrom` of a slice never panics.
        impl<'a> FromIterator<&'a i64> for $of {
            fn from_iter<I: IntoIterator<Item = &'a i64>>(values: I) -> $of {
                values.into_iter().copied().collect()
            }
        }

        /// Refused with `Full` (of a vector), `NoMemory`, where nothing is left.
        impl TryFrom<&[i64]> for $of {
            type Error = crate::Refusal;

            fn try_from(values: &[i64]) -> Result<$of, crate::Refusal> {
                let mut made = $of::new()?;
                made.extend_from_slice(values)?;
                Ok(made)
            }
        }

        impl<const LENGTH: usize> TryFrom<&[i64; LENGTH]> for $of {
            type Error = crate::Refusal;

            fn try_from(values: &[i64; LENGTH]) -> Result<$of, crate::Refusal> {
                $of::try_from(values.as_slice())
            }
        }

        impl<const LENGTH: usize> TryFrom<[i64; LENGTH]> for $of {
            type Error = crate::Refusal;

            fn try_from(values: [i64; LENGTH]) -> Result<$of, crate::Refusal> {
                $of::try_from(values.as_slice())
            }
        }

        impl TryFrom<Vec<i64>> for $of {
            type Error = crate::Refusal;

            fn try_from(values: Vec<i64>) -> Result<$of, crate::Refusal> {
                $of::try_from(values.as_slice())
            }
        }

        impl<'a> IntoIterator for &'a $of {
            type Item = i64;
            type IntoIter = crate::Through<&'a $of>;

            fn into_iter(self) -> crate::Through<&'a $of> {
                self.iter()
            }
        }

        #[doc = $equal]
        impl PartialEq for $of {
            fn eq(&self, other: &$of) -> bool {
                self.len() == other.len() && self.iter().eq(other)
            }
        }

        impl Eq for $of {}

        impl PartialEq<[i64]> for $of {
            fn eq(&self, other: &[i64]) -> bool {
                self.len() == other.len() && self.iter().eq(other.iter().copied())
            }
        }

        impl<const LENGTH: usize> PartialEq<[i64; LENGTH]> for $of {
            fn eq(&self, other: &[i64; LENGTH]) -> bool {
                *self == other[..]
            }
        }

        impl PartialEq<Vec<i64>> for $of {
            fn eq(&self, other: &Vec<i64>) -> bool {
                *self == other[..]
            }
        }
    };
}
pub(crate) use is_like_vec;

is_like_vec!(Vector, "By elements: limits, edits and tables may differ. Linear.");

macro_rules! are_made_of_nothing {
    ($($of:ident)*) => {
        $(
            /// As `new`. Panics if there is no memory, as `Vec` does; `new` never panics.
            impl Default for $of {
                fn default() -> $of {
                    $of::new().unwrap_or_else(|refusal| panic!("{refusal}"))
                }
            }
        )*
    };
}

are_made_of_nothing!(Vector Series Samples Queries);
