//! Summaries from outside. Expected values are worked out by hand from the rules, and bytes from the layout in docs/engines.md.

mod plain;

use std::thread;

use livevec::{Limits, Refusal, Summary, Vector};
use plain::of;

fn words(summary: &Summary) -> Vec<u64> {
    summary.to_bytes().chunks_exact(8).map(|word| u64::from_le_bytes(word.try_into().unwrap())).collect()
}

/// FNV-1a over the bytes before the last word.
fn checksum(bytes: &[u8; Summary::BYTES]) -> u64 {
    bytes[..Summary::BYTES - 8].iter().fold(0xcbf2_9ce4_8422_2325, |sum, byte| (sum ^ u64::from(*byte)).wrapping_mul(0x0100_0000_01b3))
}

/// The bytes with another word in the place of one, and the checksum that belongs to them.
fn forged(summary: &Summary, place: usize, word: u64) -> [u8; Summary::BYTES] {
    let mut bytes = summary.to_bytes();
    bytes[8 * place..8 * place + 8].copy_from_slice(&word.to_le_bytes());
    let sum = checksum(&bytes);
    bytes[Summary::BYTES - 8..].copy_from_slice(&sum.to_le_bytes());
    bytes
}

#[test]
fn a_join_is_the_summary_of_the_lists_end_to_end() {
    let elements = [5, -3, 4, -10, 2, 1 << 40, -7, i64::MIN, i64::MAX, 300];
    let whole = of(&elements);
    for cut in 0..=elements.len() {
        let (left, right) = (of(&elements[..cut]), of(&elements[cut..]));
        let joined = left.summary(..).unwrap().join(&right.summary(..).unwrap()).unwrap();
        assert_eq!((joined.count(), joined.edit(), joined.values()), (10, None, whole.reduce(..).unwrap().values));
        assert_eq!(joined, Summary::of(&elements).unwrap());
    }
    let three = [&elements[..2], &elements[2..7], &elements[7..]].map(|part| Summary::of(part).unwrap());
    let by_left = three[0].join(&three[1]).unwrap().join(&three[2]).unwrap();
    assert_eq!(three[0].join(&three[1].join(&three[2]).unwrap()).unwrap(), by_left);
}

#[test]
fn a_summary_of_a_range_names_its_edit() {
    let mut vector = of(&[4, 6, 9]);
    vector.write(1, -6).unwrap();
    let part = vector.summary(1..).unwrap();
    assert_eq!((part.count(), part.edit(), part.values().sum), (2, Some(4), 3));
    vector.pop().unwrap();
    assert_eq!((part.values().sum, vector.summary(..).unwrap().edit()), (3, Some(5)));
    assert_eq!(vector.summary(0..3), Err(Refusal::OutOfRange { size: 2 }));
    #[allow(clippy::reversed_empty_ranges)]
    let reversed = vector.summary(2..1);
    assert_eq!(reversed, Err(Refusal::BadRange));
}

#[test]
fn the_empty_one_changes_nothing() {
    let empty = Summary::empty();
    assert_eq!((empty.count(), empty.edit(), empty.values().sum, empty.values().best, empty.values().affine), (0, None, 0, None, (1, 0)));
    let some = Summary::of(&[7, -7]).unwrap();
    assert_eq!((empty.join(&some).unwrap(), some.join(&empty).unwrap()), (some, some));
    assert_eq!(of(&[]).summary(..).unwrap().join(&empty).unwrap(), empty);
}

#[test]
fn tables_must_agree() {
    let table = [[1, 0, 0, 0]; 8];
    let mut vector = Vector::with_table(Limits::GREATEST, &table).unwrap();
    vector.extend_from_slice(&[4, 5]).unwrap();
    let own = vector.summary(..).unwrap();
    assert_eq!((own.table(), own.values().automaton), (table, [0; 8]));
    assert_eq!((own.join(&Summary::empty()), Summary::empty().join(&own)), (Err(Refusal::OtherTable), Err(Refusal::OtherTable)));
    let empty = Summary::empty_with_table(&table).unwrap();
    assert_eq!(empty.join(&own).unwrap().values(), own.values());
    assert_eq!(Summary::empty_with_table(&[[8; 4]; 8]), Err(Refusal::BadTable));
}

#[test]
fn its_bytes_have_their_places() {
    let mut vector = of(&[4, 6, -3]);
    vector.write(0, -1).unwrap();
    // version, count, comes from a vector, its edit, sum, least, greatest; then totals of 128 bits: of all, of a front, of a back, of a run
    let wanted = [1, 3, 1, 4, 2, 3u64.wrapping_neg(), 6, 2, 0, 5, 0, 3, 0, 6, 0];
    let summary = vector.summary(..).unwrap();
    assert_eq!(words(&summary)[..15], wanted);
    assert_eq!(words(&summary)[22], checksum(&summary.to_bytes()));
    assert_eq!(Summary::from_bytes(&summary.to_bytes()), Ok(summary));
}

#[test]
fn damaged_bytes_are_refused() {
    let summary = Summary::of(&[4, 6, -3]).unwrap();
    for place in 0..Summary::BYTES {
        let mut bytes = summary.to_bytes();
        bytes[place] ^= 0x10;
        let wanted = if place < 8 { Refusal::OtherVersion } else { Refusal::Damaged };
        assert_eq!(Summary::from_bytes(&bytes), Err(wanted));
    }
    for bytes in [&[][..], &[0; Summary::BYTES], &summary.to_bytes()[1..]] {
        assert_eq!(Summary::from_bytes(bytes), Err(Refusal::OtherVersion));
    }
    // a count past the laws, an edit without a vector, an automaton's state above 7, an entry of its table above 7
    for (place, word) in [(1, (1 << 62) + 1), (3, 5), (17, 8), (18, 9)] {
        assert_eq!(Summary::from_bytes(&forged(&summary, place, word)), Err(Refusal::Damaged));
    }
}

#[test]
fn more_elements_than_2_to_the_62_are_refused() {
    let mut most = Summary::of(&[0]).unwrap();
    for _ in 0..62 {
        most = most.join(&most).unwrap();
    }
    assert_eq!((most.count(), most.values().best), (1 << 62, Some(0)));
    assert_eq!(most.join(&most), Err(Refusal::TooLong));
    assert_eq!((most.extended(&[1]), most.extended(&[])), (Err(Refusal::TooLong), Ok(most)));
}

#[test]
fn threads_summarise_and_one_joins() {
    let shards: Vec<Vec<i64>> = (0..4).map(|shard| (0..1000).map(|x| x * shard - 700).collect()).collect();
    let summaries: Vec<Summary> = thread::scope(|scope| {
        let workers: Vec<_> = shards.iter().map(|shard| scope.spawn(move || of(shard).summary(..).unwrap())).collect();
        workers.into_iter().map(|worker| worker.join().unwrap()).collect()
    });
    let all = summaries.iter().try_fold(Summary::empty(), |left, right| left.join(right)).unwrap();
    assert_eq!(all, Summary::of(&shards.concat()).unwrap());
    assert_eq!(all.values().sum, (0..4).map(|shard| shard * 499_500 - 700_000).sum::<i64>());
    fn goes_anywhere<T: Send + Sync + Copy>() {}
    goes_anywhere::<Summary>();
}
