//! The vector from outside: edits, reads, clones. Expected values are worked out by hand from the rules.

mod plain;

use livevec::{Edit, Kind, Limits, Popped, Pushed, Refusal, Reserved, Swapped, Truncated, Vector, Written};
use plain::of;

#[test]
fn each_edit_has_its_receipt() {
    let mut vector = Vector::new().unwrap();
    assert_eq!((vector.len(), vector.capacity(), vector.edits()), (0, 0, 0));
    assert_eq!(vector.push(4), Ok(Pushed { edit: 1, index: 0 }));
    assert_eq!(vector.push(i64::MIN), Ok(Pushed { edit: 2, index: 1 }));
    assert_eq!(vector.write(0, -6), Ok(Written { edit: 3, before: 4 }));
    assert_eq!(vector.reserve(9), Ok(Reserved { edit: 4, capacity: 24 }));
    assert_eq!(vector.pop(), Ok(Popped { edit: 5, value: i64::MIN }));
    assert_eq!((vector.len(), vector.capacity(), vector.edits()), (1, 24, 5));
    assert_eq!((vector.get(0), vector.last()), (Ok(-6), Some(-6)));
    assert_eq!((vector.extend_from_slice(&[]), vector.extend_from_slice(&[1, 2])), (Ok(5), Ok(7)));
}

#[test]
fn a_vector_of_one_kind_refuses_the_others() {
    let plain = of(&[4, -6, 9, -1]);
    for kind in Kind::ALL {
        let mut vector = Vector::of_kind(kind, Limits::new(2, 100).unwrap()).unwrap();
        vector.extend_from_slice(&[4, -6, 9, 0]).unwrap();
        vector.write(3, -1).unwrap();
        assert_eq!((vector.kind(), plain.kind()), (Some(kind), None));
        for asked in Kind::ALL {
            let wanted = if asked == kind { plain.value(kind, 1..) } else { Err(Refusal::BadKind) };
            assert_eq!(vector.value(asked, 1..), wanted);
            let many = vector.value_many(asked, [0..2, 1..4]);
            assert_eq!(many.is_ok(), asked == kind);
            assert_eq!(many.err().map_or(113, |refused| refused.refusal.number()), 113);
        }
        let clone = vector.try_clone().unwrap();
        assert_eq!((clone == vector, clone.kind()), (true, Some(kind)));
        for vector in [&vector, &clone] {
            assert_eq!((vector.ask(..).err(), vector.reduce(9..1).err()), (Some(Refusal::BadKind), Some(Refusal::BadKind)));
            assert_eq!(vector.scan_inclusive(..).err(), Some(Refusal::BadKind));
            assert_eq!((vector.summary(..).err(), vector.where_least(..).is_ok()), (Some(Refusal::BadKind), kind == Kind::Least));
            assert_eq!((vector.where_best(..).is_ok(), vector.where_reaches(.., 9).is_ok()), (kind == Kind::Best, kind == Kind::Best));
        }
    }
    assert_eq!(Refusal::BadKind.to_string(), "a kind that the vector is not of");
}

#[test]
fn two_elements_change_places_and_the_end_is_cut() {
    let mut vector = of(&[4, 6, 9]);
    assert_eq!(vector.swap(0, 2), Ok(Swapped { edit: 4, first: 9 }));
    assert_eq!(vector.swap(1, 1), Ok(Swapped { edit: 5, first: 6 }));
    assert_eq!(vector.swap(0, 3), Err(Refusal::OutOfRange { size: 3 }));
    assert_eq!(vector.truncate(1), Ok(Truncated { edit: 6, dropped: 2 }));
    assert_eq!(vector.truncate(2), Err(Refusal::OutOfRange { size: 1 }));
    assert_eq!((vector.len(), vector.get(0), vector.edits(), vector.capacity()), (1, Ok(9), 6, 8));
}

#[test]
fn what_is_refused_changes_nothing() {
    let mut vector = Vector::with_limits(Limits::new(1, 10).unwrap()).unwrap();
    assert_eq!(vector.pop(), Err(Refusal::Empty));
    assert_eq!(vector.last(), None);
    assert_eq!(vector.write(0, 1), Err(Refusal::OutOfRange { size: 0 }));
    assert_eq!(vector.reserve(9), Err(Refusal::TooLarge { limit: 8 }));
    vector.extend_from_slice(&[1; 8]).unwrap();
    assert_eq!(vector.push(1), Err(Refusal::Full));
    assert_eq!(vector.get(8), Err(Refusal::OutOfRange { size: 8 }));
    assert_eq!(vector.edits(), 8);
    assert_eq!((vector.pop().unwrap().edit, vector.pop().unwrap().edit), (9, 10));
    // the limit of edits comes before what else is wrong
    assert_eq!(vector.push(1), Err(Refusal::Worn));
    assert_eq!(vector.write(99, 1), Err(Refusal::Worn));
    assert_eq!((vector.len(), vector.edits()), (6, 10));
}

#[test]
fn verdicts_are_what_the_edits_answer() {
    let mut vector = Vector::with_limits(Limits::new(1, 12).unwrap()).unwrap();
    let edits = [
        Edit::Push(7),
        Edit::Pop,
        Edit::Write { index: 2, value: 5 },
        Edit::Reserve(9),
        Edit::Swap { first: 0, second: 3 },
        Edit::Truncate(4),
    ];
    for size in 0..=8 {
        let before = (vector.len(), vector.edits());
        let verdicts = edits.map(|edit| vector.verdict(edit));
        assert_eq!((vector.len(), vector.edits()), before);
        let range = |ok| if ok { Ok(()) } else { Err(Refusal::OutOfRange { size }) };
        let wanted = [
            if size < 8 { Ok(()) } else { Err(Refusal::Full) },
            if size > 0 { Ok(()) } else { Err(Refusal::Empty) },
            range(size > 2),
            Err(Refusal::TooLarge { limit: 8 }),
            range(size > 3),
            range(size >= 4),
        ];
        assert_eq!(verdicts, wanted);
        if size < 8 {
            vector.push(1).unwrap();
        }
    }
    for _ in 0..4 {
        vector.write(0, 2).unwrap();
    }
    assert_eq!(edits.map(|edit| vector.verdict(edit)), [Err(Refusal::Worn); 6]);
    let wide = [Edit::Write { index: 1 << 32, value: 7 }, Edit::Swap { first: 0, second: 1 << 32 }, Edit::Truncate(1 << 32)];
    assert_eq!(wide.map(|edit| of(&[4]).verdict(edit)), [Err(Refusal::OutOfRange { size: 1 }); 3]);
}

#[test]
fn ranges_are_read_as_rust_writes_them() {
    let vector = of(&[1, 2, 3]);
    assert_eq!(vector.sum(..), Ok(6));
    assert_eq!(vector.sum(1..), Ok(5));
    assert_eq!(vector.sum(..=1), Ok(3));
    assert_eq!(vector.sum(2..2), Ok(0));
    assert_eq!(vector.least(2..2), Ok(None));
    #[allow(clippy::reversed_empty_ranges)]
    let reversed = vector.sum(2..1);
    assert_eq!(reversed, Err(Refusal::BadRange));
    assert_eq!(vector.sum(..=u32::MAX), Err(Refusal::OutOfRange { size: 3 }));
    assert_eq!(vector.elements(0..4).err(), Some(Refusal::OutOfRange { size: 3 }));
}

#[test]
fn ranges_are_of_each_type_of_index() {
    use std::ops::Bound::{Excluded, Included, Unbounded};
    let vector = of(&[1, 20, 300]);
    let (one, two): (usize, u32) = (1, 2);
    assert_eq!((vector.sum(one..), vector.sum(..two), vector.sum(..=one), vector.sum(1..=2)), (Ok(320), Ok(21), Ok(21), Ok(320)));
    assert_eq!(vector.sum((Excluded(0), Included(one))), Ok(20));
    assert_eq!(vector.sum((Unbounded, Excluded(two))), Ok(21));
    let past = Refusal::OutOfRange { size: 3 };
    assert_eq!((vector.sum(..=usize::MAX), vector.sum(0..1_usize << 32), vector.sum(-1..2)), (Err(past), Err(past), Err(past)));
    #[allow(clippy::reversed_empty_ranges)]
    let reversed = [vector.sum(usize::MAX..2), vector.sum(-1..-2), vector.sum(usize::MAX..usize::MAX - 1)];
    assert_eq!(reversed, [Err(Refusal::BadRange); 3]);
    assert_eq!(vector.elements(one..).unwrap().collect::<Vec<_>>(), [20, 300]);
}

#[test]
fn it_is_made_of_elements_and_into_them() {
    let plain = vec![5, -6, i64::MAX];
    let made = [
        Vector::try_from(&plain[..]),
        Vector::try_from([5, -6, i64::MAX]),
        Vector::try_from(&[5, -6, i64::MAX]),
        Vector::try_from(plain.clone()),
        Vector::try_from_iter(plain.iter().copied()),
        Ok(plain.iter().collect()),
        Ok(plain.iter().copied().collect()),
    ];
    for vector in made {
        let vector = vector.unwrap();
        assert_eq!((vector.to_vec().as_ref(), vector.edits()), (Ok(&plain), 3));
        assert!(vector.into_iter().rev().eq([i64::MAX, -6, 5]));
    }
    let mut vector = of(&[1]);
    vector.extend(&plain);
    vector.extend(2..=3);
    assert_eq!(vector, [1, 5, -6, i64::MAX, 2, 3]);
    // a vector that is used up gives its elements from both ends, over what is read at once
    let mut elements = of(&(0..300).collect::<Vec<i64>>()).into_iter();
    assert_eq!((elements.next(), elements.next_back(), elements.len()), (Some(0), Some(299), 298));
    assert!(elements.eq(1..299));
    assert_eq!(of(&[]).to_vec(), Ok(vec![]));
}

#[test]
fn what_has_no_room_is_refused_or_panics() {
    assert_eq!(Vector::try_from(vec![0; 1_048_569]).err(), Some(Refusal::Full));
    assert_eq!(Vector::try_from_iter(std::iter::repeat(0)).err(), Some(Refusal::Full));
    let mut small = Vector::with_limits(Limits::new(1, 100).unwrap()).unwrap();
    let told = std::panic::catch_unwind(std::panic::AssertUnwindSafe(|| small.extend(0..10))).unwrap_err();
    assert_eq!(told.downcast_ref::<String>().unwrap(), "at place 8: full: there are as many elements as the limits allow");
    assert_eq!((small.is_empty(), small.edits()), (true, 0));
    small.extend(0..8);
    assert_eq!(small, [0, 1, 2, 3, 4, 5, 6, 7]);
}

#[test]
fn a_clone_has_elements_limits_and_table() {
    let mut table = [[0; 4]; 8];
    table[0][3] = 1;
    let mut first = Vector::with_table(Limits::new(1, 9).unwrap(), &table).unwrap();
    first.extend_from_slice(&[3, 0]).unwrap();
    first.write(1, 7).unwrap();
    let mut second = first.try_clone().unwrap();
    assert_eq!((&second, second.edits(), second.reduce(..1).unwrap().values.automaton[0]), (&first, 2, 1));
    second.push(1).unwrap();
    assert!(second != first && first == vec![3, 7] && first != [3] && first != [3, 8]);
    assert_eq!(second.reserve(9), Err(Refusal::TooLarge { limit: 8 }));
    assert_eq!(second.clear(), Ok(Truncated { edit: 4, dropped: 3 }));
    assert!(second.is_empty() && second == of(&[]));
    second.extend(0..5);
    assert_eq!(second.clear(), Err(Refusal::Worn));
}

#[test]
fn elements_from_both_ends() {
    let vector = of(&(0..300).collect::<Vec<i64>>());
    let mut elements = vector.iter();
    assert_eq!(elements.len(), 300);
    assert_eq!((elements.next(), elements.next_back(), elements.len()), (Some(0), Some(299), 298));
    assert!(elements.eq(1..299));
    assert!(vector.iter().rev().eq((0..300).rev()));
    // the ends meet within what was read at once
    let mut few = vector.elements(10..13).unwrap();
    assert_eq!((few.next(), few.next_back(), few.next_back(), few.next(), few.next_back()), (Some(10), Some(12), Some(11), None, None));
    let mut buffer = [0; 4];
    assert_eq!(vector.read_into(7..9, &mut buffer).unwrap(), [7, 8]);
    assert_eq!(vector.read_into(0..5, &mut buffer).unwrap_err(), Refusal::ShortBuffer { wanted: 5 });
}
