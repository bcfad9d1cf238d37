//! Standing queries, beside a plain list of what each was told last.

mod plain;

use livevec::{Kind, Limits, Note, Queries, Query as Asked, Refusal, Samples, Series, Value, Vector};
use plain::{numbers, plain};

struct Query {
    name: String,
    kind: Kind,
    lo: usize,
    hi: usize,
    told: Value,
}

fn now(query: &Query, list: &[i64]) -> Value {
    let hi = query.hi.min(list.len());
    plain(query.kind, &list[query.lo.min(hi)..hi])
}

/// The notes that are due, which are told now.
fn due(queries: &mut [Query], list: &[i64]) -> Vec<(String, Value)> {
    let mut notes = Vec::new();
    for query in queries {
        let value = now(query, list);
        if value != query.told {
            query.told = value;
            notes.push((query.name.clone(), value));
        }
    }
    notes
}

#[test]
fn notes_are_those_of_a_plain_list() {
    let mut next = numbers(17);
    let (mut vector, mut list) = (Vector::new().unwrap(), Vec::new());
    let (mut set, mut queries) = (Queries::new().unwrap(), Vec::<Query>::new());
    let mut edits = 0;
    for _ in 0..600 {
        let name = format!("n{}", next(14));
        if next(5) == 0 {
            let (kind, lo, hi) = (Kind::ALL[next(6)], next(60), next(120));
            let wanted = match hi < lo {
                true => Err(Refusal::BadRange),
                false if queries.iter().any(|query| query.name == name) => Err(Refusal::NameTaken),
                false => Ok(()),
            };
            assert_eq!(set.watch(&name, kind, lo..hi), wanted);
            if wanted.is_ok() {
                queries.push(Query { name: name.clone(), kind, lo, hi, told: plain(kind, &[]) });
            }
        }
        if next(12) == 0 {
            let at = queries.iter().position(|query| query.name == name);
            assert_eq!(set.unwatch(&name), at.map(|at| drop(queries.remove(at))).ok_or(Refusal::NoSuchName));
        }
        let x = next(9) as i64 - 4;
        if next(3) == 0 && !list.is_empty() {
            let at = next(list.len());
            vector.write(at as u32, x).unwrap();
            list[at] = x;
        } else if next(6) == 0 && !list.is_empty() {
            vector.pop().unwrap();
            list.pop();
        } else {
            vector.push(x).unwrap();
            list.push(x);
        }
        edits += 1;
        if next(3) > 0 {
            let notes = set.notes(&mut vector).unwrap();
            assert!(notes.iter().all(|note| note.edit == edits));
            let told: Vec<_> = notes.iter().map(|note: &Note| (note.name().to_owned(), note.value)).collect();
            assert_eq!(told, due(&mut queries, &list));
            assert_eq!(set.notes(&mut vector), Ok(Vec::new()));
        }
        for query in &queries {
            let answer = set.answer(&vector, &query.name).unwrap();
            assert_eq!((answer.edit, answer.value), (edits, now(query, &list)));
        }
    }
}

#[test]
fn what_is_refused_changes_nothing() {
    let mut set = Queries::new().unwrap();
    for name in ["", "A", "a b", "é", "seventeen_bytes_17"] {
        assert_eq!(set.watch(name, Kind::Sum, 5..3), Err(Refusal::BadName));
        assert_eq!(set.unwatch(name), Err(Refusal::BadName));
    }
    assert_eq!(set.watch("sixteen_bytes_16", Kind::Least, 5..3), Err(Refusal::BadRange));
    assert_eq!(set.watch("sixteen_bytes_16", Kind::Least, 0..usize::MAX), Ok(()));
    assert_eq!(set.watch("sixteen_bytes_16", Kind::Sum, ..), Err(Refusal::NameTaken));
    let mut sums = Vector::of_kind(Kind::Sum, Limits::GREATEST).unwrap();
    sums.push(4).unwrap();
    assert_eq!(set.notes(&mut sums), Err(Refusal::BadKind));
    assert_eq!(set.answer(&sums, "sixteen_bytes_16"), Err(Refusal::BadKind));
    let mut all = Vector::try_from([3, -5]).unwrap();
    let notes = set.notes(&mut all).unwrap();
    assert_eq!(format!("{notes:?}"), r#"[Note { name: "sixteen_bytes_16", kind: Least, edit: 2, value: Least(Some(-5)) }]"#);
    for i in 1..Queries::MOST {
        set.watch(&format!("q{i}"), Kind::Affine, -4..2).unwrap();
    }
    assert_eq!(set.watch("more", Kind::Sum, ..), Err(Refusal::TooMany));
    assert_eq!(set.notes(&mut all).unwrap().len(), 63);
    let sent = std::thread::spawn(move || set.notes(&mut all).unwrap().len());
    assert_eq!(sent.join().unwrap(), 0);
    assert_eq!(Refusal::NoSuchName.number(), 11);
    assert_eq!(Refusal::BadName.to_string(), "what is no name of a query");
}

/// Spans, bounds and windows of time, worked by hand.
#[test]
fn spans_and_bounds() {
    let (mut feed, mut set) = (Series::new().unwrap(), Queries::new().unwrap());
    set.watch_query("two", Asked::by(Kind::Sum).last(2)).unwrap();
    set.watch_query("high", Asked::by(Kind::Greatest).last(3).at_least(10)).unwrap();
    set.watch_query("low", Asked::by(Kind::Least).at_most(-1)).unwrap();
    let mut after = |value, set: &mut Queries| {
        feed.push(value).unwrap();
        set.notes(&mut feed).unwrap().iter().map(|note| (note.name().to_owned(), note.value)).collect::<Vec<_>>()
    };
    let one = |name: &str, value| (name.to_owned(), value);
    assert_eq!(after(4, &mut set), [one("two", Value::Sum(4))]);
    assert_eq!(after(10, &mut set), [one("two", Value::Sum(14)), one("high", Value::Greatest(Some(10)))]);
    assert_eq!(after(4, &mut set), []);
    assert_eq!(after(-1, &mut set), [one("two", Value::Sum(3)), one("low", Value::Least(Some(-1)))]);
    assert_eq!(set.answer(&feed, "high").map(|told| (told.edit, told.value)), Ok((4, Value::Greatest(Some(10)))));

    let (mut load, mut windows) = (Samples::new().unwrap(), Queries::new().unwrap());
    windows.watch_query("ten", Asked::by(Kind::Sum).within(10)).unwrap();
    load.push_many(&[0, 5, 9], &[7, 1, 2]).unwrap();
    assert_eq!(windows.notes(&mut load).unwrap()[0].value, Value::Sum(10));
    load.push(15, 3).unwrap();
    assert_eq!(windows.answer(&load, "ten").unwrap().value, Value::Sum(5));
    assert_eq!(windows.notes(&mut feed), Err(Refusal::BadKind));
    assert_eq!(windows.answer(&Vector::new().unwrap(), "ten").err(), Some(Refusal::BadKind));
}
