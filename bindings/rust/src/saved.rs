//! A [`Vector`] as bytes, a [`Series`], or [`Samples`], and back.

use std::io::{self, Read, Write};

use crate::raw::series::Loading;
use crate::{Refusal, Samples, Series, Vector, raw};

// So many bytes go to a writer, and come from a reader, at once.
const AT_ONCE: usize = 1 << 16;

/// As bytes. They are those of a [`Series`] of the same elements, so that either loads what the other has saved.
impl Vector {
    /// How many bytes [`save`](Vector::save) gives: 88, and 8 for each element. O(1).
    pub fn saved_len(&self) -> u64 {
        self.raw.saved_length().into()
    }

    /// The elements as bytes, which [`load`](Vector::load) takes. Linear. Limits, table, kind and edits aren't saved. Refused with `NoMemory`.
    ///
    /// ```
    /// use livevec::{Refusal, Series, Vector};
    ///
    /// # fn main() -> Result<(), Refusal> {
    /// let mut prices = Vector::try_from([300, 120, 500])?;
    /// prices.write(0, 180)?;
    /// let bytes = prices.save()?;
    /// let back = Vector::load(&bytes)?;
    /// assert_eq!((back == prices, back.edits(), prices.edits()), (true, 3, 4));
    /// assert_eq!(Series::load(&bytes)?.to_vec(..)?, [180, 120, 500]);
    /// assert_eq!(Vector::load(&bytes[1..]).unwrap_err(), Refusal::NotSaved);
    /// # Ok(())
    /// # }
    /// ```
    pub fn save(&self) -> Result<Vec<u8>, Refusal> {
        whole(self.saved_len(), |bytes| self.save_into(0, bytes))
    }

    /// Puts the bytes from the place `from` on into a buffer, as [`Series::save_into`] does. Each piece copies all elements, so [`save`](Vector::save) is
    /// quicker. Refused with `NoMemory`, then with `BadRange` where `from` is no multiple of 8.
    pub fn save_into(&self, from: u64, buffer: &mut [u8]) -> Result<usize, Refusal> {
        self.raw.save(from, buffer).map(|did| did.length as usize)
    }

    /// The same bytes to a writer, which are in memory until then. Tells how many they are.
    pub fn save_to(&self, mut writer: impl Write) -> io::Result<u64> {
        let bytes = self.save().map_err(told)?;
        writer.write_all(&bytes)?;
        Ok(bytes.len() as u64)
    }

    /// Pushes the elements of what was saved, of a vector or of a series: all, or none. Linear. Tells the number of the last edit. Refused with
    /// `NotSaved` where the bytes are not exactly those of one, then with `Worn`, `Full` and `NoMemory` as [`extend_from_slice`](Vector::extend_from_slice)
    /// is.
    ///
    /// ```
    /// use livevec::{Limits, Refusal, Vector};
    ///
    /// # fn main() -> Result<(), Refusal> {
    /// let bytes = Vector::try_from([300, 120, 500])?.save()?;
    /// let mut small = Vector::with_limits(Limits::new(1, 5)?)?;
    /// assert_eq!(small.push_saved(&bytes)?, 3);
    /// assert_eq!(small.push_saved(&bytes), Err(Refusal::Worn));
    /// assert_eq!(small, [300, 120, 500]);
    /// # Ok(())
    /// # }
    /// ```
    pub fn push_saved(&mut self, bytes: &[u8]) -> Result<u32, Refusal> {
        self.raw.push_saved(bytes)?;
        Ok(self.edits())
    }

    /// A vector of the greatest limits with the elements of what was saved, of a vector or of a series, whose edits are their pushes. Linear. Into one of
    /// other limits, or of a kind, they come by [`push_saved`](Vector::push_saved). Refused with `NotSaved`, `Full` and `NoMemory`.
    pub fn load(bytes: &[u8]) -> Result<Vector, Refusal> {
        let mut made = Vector::new()?;
        made.push_saved(bytes)?;
        Ok(made)
    }

    /// The same of all that a reader gives up to its end, as [`Series::load_from`] gives a series.
    pub fn load_from(reader: impl Read) -> io::Result<Vector> {
        let mut read = Series::load_from(reader)?;
        let mut made = Vector::new().map_err(told)?;
        let lent = read.lend(..).map_err(told)?;
        made.extend_from_slice(&lent).map_err(|refused| told(refused.refusal))?;
        Ok(made)
    }
}

impl Series {
    /// How many bytes [`save`](Series::save) gives: 88, and 8 for each element. Of the values of [`Samples`] it is 16 for each. O(1).
    pub fn saved_len(&self) -> u64 {
        self.raw.saved_length()
    }

    /// The series as bytes, which [`load`](Series::load) takes. Linear. Trees aren't saved. The layout is told in `docs/formats.md` of the repository.
    /// Refused with `NoMemory`.
    ///
    /// ```
    /// use livevec::{Refusal, Series};
    ///
    /// # fn main() -> Result<(), Refusal> {
    /// let mut readings = Series::new()?;
    /// readings.extend_from_slice(&[20, 22, 19])?;
    /// readings.expire(1)?;
    /// let bytes = readings.save()?;
    /// let mut back = Series::load(&bytes)?;
    /// assert_eq!((back.to_vec(..)?, back.first(), back.push(25)?.edit), (vec![22, 19], 1, 5));
    /// assert_eq!(Series::load(&bytes[1..]).unwrap_err(), Refusal::NotSaved);
    /// # Ok(())
    /// # }
    /// ```
    pub fn save(&self) -> Result<Vec<u8>, Refusal> {
        whole(self.saved_len(), |bytes| self.save_into(0, bytes))
    }

    /// Puts the bytes from the place `from` on into a buffer, in whole numbers of 8, as many as it takes; the rest of the buffer stays. Tells
    /// how many they are, 0 at the end: the next piece starts behind them. An edit between two pieces makes them pieces of two series. Refused
    /// with `BadRange` where `from` is no multiple of 8.
    pub fn save_into(&self, from: u64, buffer: &mut [u8]) -> Result<usize, Refusal> {
        self.raw.save(from, buffer).map(|did| did.length as usize)
    }

    /// The same bytes to a writer, in pieces: no more than 64 KiB beside the series. Tells how many they are.
    pub fn save_to(&self, mut writer: impl Write) -> io::Result<u64> {
        let (mut from, mut piece) = (0, room()?);
        loop {
            match self.save_into(from, &mut piece).map_err(told)? {
                0 => return Ok(from),
                many => {
                    writer.write_all(&piece[..many])?;
                    from += many as u64;
                }
            }
        }
    }

    /// The series that has these bytes: the same elements under the same indices, and the next edit has the next number. Linear. Refused with
    /// `NotSaved` where they are not exactly those of a series, and with `NoMemory`.
    pub fn load(bytes: &[u8]) -> Result<Series, Refusal> {
        let mut loading = Loading::new(false)?;
        loading.give(bytes)?;
        loading.end().map(|raw| Series { raw })
    }

    /// The same of all that a reader gives up to its end. What was read is in memory until then. What [`load`](Series::load) refuses is an
    /// error of the kind `InvalidData`, or `OutOfMemory`.
    pub fn load_from(reader: impl Read) -> io::Result<Series> {
        read_all(false, reader).map(|raw| Series { raw })
    }
}

impl Samples {
    /// The samples as bytes, which [`load`](Samples::load) takes; `values().save_into(..)` gives them in pieces. Linear. Refused with `NoMemory`.
    pub fn save(&self) -> Result<Vec<u8>, Refusal> {
        self.values().save()
    }

    /// The same bytes to a writer, as [`Series::save_to`] puts those of a series.
    pub fn save_to(&self, writer: impl Write) -> io::Result<u64> {
        self.values().save_to(writer)
    }

    /// The samples that have these bytes, as [`Series::load`] gives a series. Refused with `NotSaved` where they are not exactly those of
    /// samples, and with `NoMemory`.
    ///
    /// ```
    /// use livevec::{Refusal, Samples, Series};
    ///
    /// # fn main() -> Result<(), Refusal> {
    /// let mut load = Samples::new()?;
    /// load.push(-60, 7)?;
    /// let bytes = load.save()?;
    /// assert_eq!(Samples::load(&bytes)?.times(..)?, [-60]);
    /// assert_eq!(Series::load(&bytes).unwrap_err(), Refusal::NotSaved);
    /// # Ok(())
    /// # }
    /// ```
    pub fn load(bytes: &[u8]) -> Result<Samples, Refusal> {
        let mut loading = Loading::new(true)?;
        loading.give(bytes)?;
        loading.end().map(Samples::of_raw)
    }

    /// The same of all that a reader gives up to its end, as [`Series::load_from`] gives a series.
    pub fn load_from(reader: impl Read) -> io::Result<Samples> {
        read_all(true, reader).map(Samples::of_raw)
    }
}

/// So many bytes, which a call fills.
fn whole(length: u64, save: impl FnOnce(&mut [u8]) -> Result<usize, Refusal>) -> Result<Vec<u8>, Refusal> {
    let mut bytes = raw::roomy(length as usize)?;
    bytes.resize(length as usize, 0);
    save(&mut bytes)?;
    Ok(bytes)
}

fn room() -> io::Result<Vec<u8>> {
    whole(AT_ONCE as u64, |_| Ok(AT_ONCE)).map_err(told)
}

fn read_all(timed: bool, mut reader: impl Read) -> io::Result<raw::series::Series> {
    let (mut loading, mut piece) = (Loading::new(timed).map_err(told)?, room()?);
    loop {
        match reader.read(&mut piece) {
            Ok(0) => return loading.end().map_err(told),
            Ok(many) => loading.give(&piece[..many]).map_err(told)?,
            Err(error) if error.kind() == io::ErrorKind::Interrupted => {}
            Err(error) => return Err(error),
        }
    }
}

fn told(refusal: Refusal) -> io::Error {
    let kind = match refusal {
        Refusal::NotSaved => io::ErrorKind::InvalidData,
        Refusal::NoMemory => io::ErrorKind::OutOfMemory,
        _ => io::ErrorKind::Other,
    };
    io::Error::new(kind, refusal)
}
