//! Vectors, series and samples as bytes, beside bytes that are laid out here as the repository's `docs/formats.md` says.

mod plain;

use std::io::{self, ErrorKind, Read};

use livevec::{Kind, Limits, Refusal, Samples, Series, Vector};
use plain::numbers;

/// The bytes of elements that are kept from `first` on, after so many edits, with times or without.
fn laid_out(first: u64, edits: u64, values: &[i64], times: Option<&[i64]>) -> Vec<u8> {
    let states: Vec<u8> = (0..4).flat_map(|rest| (0..8).map(move |state| (2 * state + rest) % 8)).collect();
    let mut bytes = b"livevec:".to_vec();
    for number in [1, 1 + u64::from(times.is_some()), first, edits, values.len() as u64] {
        bytes.extend(number.to_le_bytes());
    }
    bytes.extend(states);
    for number in values.iter().chain(times.unwrap_or(&[])) {
        bytes.extend(number.to_le_bytes());
    }
    let sum = bytes.iter().fold(0xcbf2_9ce4_8422_2325_u64, |sum, &byte| (sum ^ u64::from(byte)).wrapping_mul(0x100_0000_01b3));
    bytes.extend(sum.to_le_bytes());
    bytes
}

/// Some numbers, times that don't fall, and both as a series and as samples whose first so many are gone.
fn some(count: usize, gone: usize) -> (Vec<i64>, Vec<i64>, Series, Samples) {
    let mut next = numbers(7);
    let values: Vec<i64> = (0..count).map(|_| if next(9) == 0 { i64::MIN } else { next(2001) as i64 - 1000 }).collect();
    let times: Vec<i64> = (0..count).scan(-30, |time, _| Some(std::mem::replace(time, *time + next(3) as i64))).collect();
    let (mut readings, mut load) = (Series::new().unwrap(), Samples::new().unwrap());
    readings.extend_from_slice(&values).unwrap();
    load.push_many(&times, &values).unwrap();
    readings.expire(gone as u64).unwrap();
    load.expire(gone as u64).unwrap();
    (values, times, readings, load)
}

/// The same bytes in pieces of a length.
fn in_pieces(readings: &Series, length: usize) -> Vec<u8> {
    let (mut bytes, mut piece) = (Vec::new(), vec![0; length]);
    while let many @ 1.. = readings.save_into(bytes.len() as u64, &mut piece).unwrap() {
        bytes.extend_from_slice(&piece[..many]);
    }
    bytes
}

/// Gives a byte at a time, and is interrupted before each.
struct Slow<'a>(&'a [u8], bool);

impl Read for Slow<'_> {
    fn read(&mut self, into: &mut [u8]) -> io::Result<usize> {
        self.1 = !self.1;
        if self.1 { Err(ErrorKind::Interrupted.into()) } else { self.0.read(&mut into[..1]) }
    }
}

#[test]
fn bytes_are_as_they_are_laid_out() {
    for (count, gone) in [(0, 0), (1, 0), (1, 1), (9, 2), (300, 41)] {
        let (values, times, readings, load) = some(count, gone);
        let edits = count as u64 + 1;
        let of_series = laid_out(gone as u64, edits, &values[gone..], None);
        let of_samples = laid_out(gone as u64, edits, &values[gone..], Some(&times[gone..]));
        assert_eq!((readings.save().unwrap(), load.save().unwrap()), (of_series.clone(), of_samples.clone()));
        assert_eq!((readings.saved_len(), load.values().saved_len()), (of_series.len() as u64, of_samples.len() as u64));
        for length in [8, 13, 96] {
            assert_eq!((in_pieces(&readings, length), in_pieces(load.values(), length)), (of_series.clone(), of_samples.clone()));
        }
        let mut written = Vec::new();
        assert_eq!(readings.save_to(&mut written).unwrap(), of_series.len() as u64);
        assert_eq!(load.save_to(&mut written).unwrap(), of_samples.len() as u64);
        assert_eq!(written, [of_series, of_samples].concat());
    }
}

#[test]
fn what_is_loaded_goes_on() {
    let (values, times, readings, load) = some(70, 12);
    let (of_series, of_samples) = (readings.save().unwrap(), load.save().unwrap());
    for mut back in
        [Series::load(&of_series).unwrap(), Series::load_from(&*of_series).unwrap(), Series::load_from(Slow(&of_series, false)).unwrap()]
    {
        assert_eq!((back.to_vec(..).unwrap(), back.first(), back.edits()), (values[12..].to_vec(), 12, 71));
        let pushed = back.push(5).unwrap();
        assert_eq!((pushed.index, pushed.edit, back.sum(69..)), (70, 72, Ok(values[69].wrapping_add(5))));
    }
    for mut back in [Samples::load(&of_samples).unwrap(), Samples::load_from(Slow(&of_samples, false)).unwrap()] {
        assert_eq!((back.values().to_vec(..).unwrap(), back.times(..).unwrap()), (values[12..].to_vec(), times[12..].to_vec()));
        assert_eq!(back.push(times[69] - 1, 5), Err(Refusal::Earlier { newest: times[69] }));
        let pushed = back.push(times[69], 5).unwrap();
        assert_eq!((pushed.index, pushed.edit), (70, 72));
    }
}

#[test]
fn other_bytes_are_refused() {
    let (_, _, readings, load) = some(9, 2);
    let (mut of_series, mut of_samples) = (readings.save().unwrap(), load.save().unwrap());
    for at in 0..of_series.len() {
        of_series[at] ^= 1;
        assert_eq!(Series::load(&of_series).unwrap_err(), Refusal::NotSaved);
        of_series[at] ^= 1;
        assert_eq!(Series::load(&of_series[..at]).unwrap_err(), Refusal::NotSaved);
    }
    for at in 0..of_samples.len() {
        of_samples[at] ^= 128;
        assert_eq!(Samples::load(&of_samples).unwrap_err(), Refusal::NotSaved);
        of_samples[at] ^= 128;
    }
    of_series.push(0);
    assert_eq!(Series::load(&of_series).unwrap_err(), Refusal::NotSaved);
    assert_eq!(Series::load_from(&*of_series).unwrap_err().kind(), ErrorKind::InvalidData);
    assert_eq!((Series::load(&of_samples).unwrap_err(), Samples::load(&[]).unwrap_err()), (Refusal::NotSaved, Refusal::NotSaved));
    assert_eq!(readings.save_into(4, &mut [0; 8]), Err(Refusal::BadRange));
}

#[test]
fn errors_of_streams_are_handed_on() {
    struct Broken;
    impl Read for Broken {
        fn read(&mut self, _: &mut [u8]) -> io::Result<usize> {
            Err(ErrorKind::ConnectionReset.into())
        }
    }
    let (_, _, readings, load) = some(9, 2);
    assert_eq!(Samples::load_from(Broken).unwrap_err().kind(), ErrorKind::ConnectionReset);
    let mut room = [0; 20];
    assert_eq!(readings.save_to(&mut room[..]).unwrap_err().kind(), ErrorKind::WriteZero);
    assert_eq!(load.save_to(&mut room[..]).unwrap_err().kind(), ErrorKind::WriteZero);
}

#[test]
fn a_vector_is_saved_as_a_series_of_its_elements() {
    for count in [0, 1, 9, 1025] {
        let (values, ..) = some(count, 0);
        let mut vector = Vector::try_from(&values[..]).unwrap();
        vector.push(7).unwrap();
        vector.pop().unwrap();
        let bytes = laid_out(0, count as u64, &values, None);
        assert_eq!((vector.save().unwrap(), vector.saved_len()), (bytes.clone(), bytes.len() as u64));
        let (mut pieces, mut piece) = (Vec::new(), [0; 3001]);
        while let many @ 1.. = vector.save_into(pieces.len() as u64, &mut piece).unwrap() {
            pieces.extend_from_slice(&piece[..many]);
        }
        assert_eq!(pieces, bytes);
        let mut written = Vec::new();
        assert_eq!((vector.save_to(&mut written).unwrap(), written), (bytes.len() as u64, bytes.clone()));
        for mut back in
            [Vector::load(&bytes).unwrap(), Vector::load_from(&*bytes).unwrap(), Vector::load_from(Slow(&bytes, false)).unwrap()]
        {
            assert_eq!((back.to_vec().unwrap(), back.edits() as usize), (values.clone(), count));
            assert_eq!((back.push_saved(&bytes).unwrap() as usize, back.len()), (2 * count, 2 * count));
            assert_eq!(back.elements(count..).unwrap().collect::<Vec<_>>(), values);
        }
        assert_eq!(Series::load(&bytes).unwrap().to_vec(..).unwrap(), values);
    }
}

#[test]
fn a_vector_takes_what_a_series_has_kept() {
    let (values, _, readings, load) = some(70, 12);
    let (bytes, of_samples) = (readings.save().unwrap(), load.save().unwrap());
    assert_eq!(Vector::load(&bytes).unwrap(), values[12..]);
    let mut of_kind = Vector::of_kind(Kind::Least, Limits::new(4, 100).unwrap()).unwrap();
    assert_eq!((of_kind.push_saved(&bytes), of_kind.least(..)), (Ok(58), Ok(values[12..].iter().copied().min())));
    assert_eq!((of_kind.push_saved(&bytes), of_kind.push_saved(&of_samples)), (Err(Refusal::Worn), Err(Refusal::NotSaved)));
    let mut small = Vector::with_limits(Limits::new(3, 100).unwrap()).unwrap();
    assert_eq!((small.push_saved(&bytes), small.len(), small.edits()), (Err(Refusal::Full), 0, 0));
    let mut wrong = bytes.clone();
    for at in 0..wrong.len() {
        wrong[at] ^= 4;
        assert_eq!(small.push_saved(&wrong), Err(Refusal::NotSaved));
        wrong[at] ^= 4;
    }
    assert_eq!((Vector::load(&bytes[1..]).unwrap_err(), Vector::load(&[]).unwrap_err()), (Refusal::NotSaved, Refusal::NotSaved));
    assert_eq!(Vector::load_from(&of_samples[..]).unwrap_err().kind(), ErrorKind::InvalidData);
    assert_eq!(of_kind.save_into(4, &mut [0; 8]), Err(Refusal::BadRange));
    assert_eq!(of_kind.save_to(&mut [0; 20][..]).unwrap_err().kind(), ErrorKind::WriteZero);
}
