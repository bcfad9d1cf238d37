//! Values of ranges, one or many, by hand and beside plain loops.

mod plain;

use livevec::{Kind, Limits, Refusal, RefusedAt, Value, Vector};
use plain::{numbers, of, plain};

#[test]
fn kinds_have_names() {
    use livevec::{Kind, UnknownKind};
    let names = ["sum", "least", "greatest", "best", "affine", "automaton"];
    assert_eq!(Kind::ALL.map(|kind| kind.to_string()), names);
    assert_eq!(names.map(str::parse), Kind::ALL.map(Ok::<Kind, UnknownKind>));
    for wrong in ["", "Sum", " sum", "sum ", "sums", "summe"] {
        assert!(wrong.parse::<Kind>().is_err());
    }
}

#[test]
fn six_values_of_one_range() {
    let vector = of(&[5, -3, 4, -10, 2]);
    let all = vector.reduce(..).unwrap();
    assert_eq!((all.edit, all.values.sum), (5, -2));
    assert_eq!((all.values.least, all.values.greatest, all.values.best), (Some(-10), Some(5), Some(6)));
    // each element's map, composed: 5 is (0, 5); -3 is (-1, 253); 4 is (0, 4); -10 is (-1, 246); 2 is (0, 2)
    assert_eq!(all.values.affine, (0, 2));
    // from 0: 5 mod 4 = 1 leads to 1, then 1: 2+1 = 3, then 0: 6, then 2: 12+2 mod 8 = 6, then 2: 14 mod 8 = 6
    assert_eq!(all.values.automaton[0], 6);
    let none = vector.ask(1..1).unwrap().values;
    assert_eq!((none.sum, none.least, none.greatest, none.best), (0, None, None, None));
    assert_eq!((none.affine, none.automaton), ((1, 0), [0, 1, 2, 3, 4, 5, 6, 7]));
}

#[test]
fn best_is_exact_past_64_bits() {
    let vector = of(&[i64::MAX, i64::MAX, i64::MIN]);
    assert_eq!(vector.best(..2), Ok(Some(2 * i128::from(i64::MAX))));
    assert_eq!(of(&[i64::MIN, i64::MIN]).best(..), Ok(Some(i128::from(i64::MIN))));
}

#[test]
fn sums_wrap_past_64_bits() {
    for (elements, wanted) in [([i64::MAX, 1], i64::MIN), ([i64::MIN, -1], i64::MAX), ([i64::MAX, i64::MAX], -2), ([-3, 1], -2)] {
        let vector = of(&elements);
        assert_eq!((vector.sum(..), vector.reduce(..).unwrap().values.sum), (Ok(wanted), wanted));
    }
}

#[test]
fn values_by_one_kind_are_those_of_plain_loops() {
    let mut next = numbers(3);
    let (mut vector, mut list) = (Vector::new().unwrap(), Vec::new());
    for _ in 0..200 {
        for _ in 0..next(9) {
            let x = [i64::MIN, i64::MAX, next(2001) as i64 - 1000, next(7) as i64 - 3][next(4)];
            vector.push(x).unwrap();
            list.push(x);
        }
        if next(5) == 0 {
            let kept = list.len() - next(list.len() / 4 + 1);
            vector.truncate(kept as u32).unwrap();
            list.truncate(kept);
        }
        let writes = if list.is_empty() { 0 } else { next(12) };
        let indices: Vec<u32> = (0..writes).map(|_| next(list.len()) as u32).collect();
        let values: Vec<i64> = (0..writes).map(|_| next(4001) as i64 - 2000).collect();
        indices.iter().zip(&values).for_each(|(index, value)| list[*index as usize] = *value);
        let edits = vector.edits();
        assert_eq!(vector.write_many(&indices, &values), Ok(edits + writes as u32));
        for kind in Kind::ALL {
            let mut range = || {
                let (a, b) = (next(list.len() + 1), next(list.len() + 1));
                a.min(b)..a.max(b)
            };
            let ranges: Vec<_> = (0..6).map(|_| range()).collect();
            let wanted: Vec<Value> = ranges.iter().map(|range| plain(kind, &list[range.clone()])).collect();
            assert_eq!(vector.value_many(kind, ranges.iter().cloned()).unwrap(), wanted);
            assert_eq!(vector.value(kind, ranges[0].clone()), Ok(wanted[0]));
        }
    }
    assert_eq!(vector.to_vec().unwrap(), list);
}

#[test]
fn many_are_refused_by_the_first_that_is() {
    let mut vector = Vector::with_limits(Limits::new(1, 6).unwrap()).unwrap();
    vector.extend_from_slice(&[3, 1, 2]).unwrap();
    let size = Refusal::OutOfRange { size: 3 };
    assert_eq!(vector.value_many(Kind::Sum, [0..3, 1..4, 0..9]), Err(RefusedAt { place: 1, done: 0, refusal: size }));
    #[allow(clippy::reversed_empty_ranges)]
    let reversed = vector.value_many(Kind::Sum, [0..3, 1..2, 2..1, -5..2]);
    assert_eq!(reversed, Err(RefusedAt { place: 2, done: 0, refusal: Refusal::BadRange }));
    assert_eq!(vector.value_many(Kind::Best, [-5..2, 0..1]).unwrap_err().refusal, size);
    assert_eq!(vector.value_many(Kind::Best, [0..0; 0]), Ok(vec![]));
    assert_eq!((vector.value(Kind::Least, 2..9), vector.value(Kind::Least, ..)), (Err(size), Ok(Value::Least(Some(1)))));

    assert_eq!(vector.write_many(&[0, 3], &[5, 5]), Err(RefusedAt { place: 1, done: 0, refusal: size }));
    // one in the middle is refused: none is made
    assert_eq!(vector.write_many(&[0, 9, 1], &[7, 7, 7]), Err(RefusedAt { place: 1, done: 0, refusal: size }));
    assert_eq!((vector.to_vec().unwrap(), vector.edits()), (vec![3, 1, 2], 3));
    assert_eq!(vector.write_many(&[0, 1], &[5]).unwrap_err().refusal, Refusal::ShortBuffer { wanted: 2 });
    assert_eq!((vector.write_many(&[0, 0], &[5, 6]), vector.write_many::<u32>(&[], &[])), (Ok(5), Ok(5)));
    let worn = vector.write_many(&[0, 1], &[7, 7]).unwrap_err();
    assert_eq!(
        (worn, worn.to_string()),
        (RefusedAt { place: 1, done: 0, refusal: Refusal::Worn }, "at place 1: the limit of edits is reached".into())
    );
    assert_eq!((vector.to_vec().unwrap(), vector.edits()), (vec![6, 1, 2], 5));
    let refused = RefusedAt { place: 1, done: 0, refusal: Refusal::Worn };
    assert_eq!((vector.extend_from_slice(&[1, 1]), vector.try_extend([1, 1])), (Err(refused), Err(refused)));
    assert_eq!((vector.to_vec().unwrap(), vector.edits(), vector.extend_from_slice(&[])), (vec![6, 1, 2], 5, Ok(5)));
    assert_eq!((vector.try_extend([4]), vector.to_vec().unwrap()), (Ok(6), vec![6, 1, 2, 4]));
}
