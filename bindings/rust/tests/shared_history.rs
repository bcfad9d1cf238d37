//! A shared vector, beside a plain list of what its receipts say.

mod plain;

use std::collections::BTreeMap;
use std::sync::Arc;
use std::sync::atomic::{AtomicBool, Ordering};
use std::thread;
use std::time::Duration;

use livevec::{Kind, Note, Queries, Shared, Value, Vector};
use plain::{numbers, plain, until};

/// The same numbers, of 32 bits.
fn small_numbers(seed: u64) -> impl FnMut(u32) -> u32 {
    let mut next = numbers(seed);
    move |below| next(below as usize) as u32
}

/// What an edit did, as a plain list does it.
#[derive(Clone, Debug)]
enum Did {
    Push(i64),
    Pop(i64),
    Write(u32, i64, Option<i64>),
    Swap(u32, u32),
    Truncate(u32),
}

fn redo(list: &mut Vec<i64>, did: &Did) {
    match *did {
        Did::Push(value) => list.push(value),
        Did::Pop(value) => assert_eq!(list.pop(), Some(value)),
        Did::Write(index, value, before) => {
            let old = std::mem::replace(&mut list[index as usize], value);
            assert!(before.is_none_or(|before| before == old));
        }
        Did::Swap(a, b) => list.swap(a as usize, b as usize),
        Did::Truncate(size) => list.truncate(size as usize),
    }
}

/// Edits of all forms, and what the receipts of those say that weren't refused.
fn feed(shared: &Shared, seed: u64, rounds: u32) -> Vec<(u32, Did)> {
    let (mut next, mut did) = (small_numbers(seed), Vec::new());
    for _ in 0..rounds {
        let (value, index, other) = (i64::from(next(2001)) - 1000, next(700), next(700));
        match next(12) {
            0 => did.extend(shared.pop().map(|it| (it.edit, Did::Pop(it.value)))),
            1..=4 => did.extend(shared.write(index, value).map(|it| (it.edit, Did::Write(index, value, Some(it.before))))),
            5 => did.extend(shared.swap(index, other).map(|it| (it.edit, Did::Swap(index, other)))),
            6 if next(40) == 0 => did.extend(shared.truncate(index).map(|it| (it.edit, Did::Truncate(index)))),
            7 => {
                let last = shared.extend_from_slice(&[value, 5, -value]).unwrap();
                did.extend([value, 5, -value].into_iter().zip(last - 2..).map(|(value, edit)| (edit, Did::Push(value))));
            }
            8 => {
                if let Ok(last) = shared.write_many(&[index, other], &[value, 9]) {
                    did.push((last - 1, Did::Write(index, value, None)));
                    did.push((last, Did::Write(other, 9, None)));
                }
            }
            9 => {
                let of = shared.reduce(..).unwrap();
                assert!(of.values.least <= of.values.greatest);
                let pushed = shared.with(|vector| (vector.push(vector.len() as i64).unwrap(), vector.len())).unwrap();
                assert_eq!(pushed.0.index + 1, pushed.1);
                did.push((pushed.0.edit, Did::Push(pushed.0.index as i64)));
            }
            _ => did.push((shared.push(value).unwrap().edit, Did::Push(value))),
        }
    }
    did
}

/// Sixteen names of a subscriber, with what they ask.
fn asked(seed: u64) -> (Queries, BTreeMap<String, (Kind, u32, u32)>) {
    let (mut next, mut queries, mut names) = (small_numbers(seed), Queries::new().unwrap(), BTreeMap::new());
    for i in 0..16 {
        let (kind, lo) = (Kind::ALL[i % 6], next(400));
        let hi = lo + 1 + next(500);
        queries.watch(&format!("q{i}"), kind, lo..hi).unwrap();
        names.insert(format!("q{i}"), (kind, lo, hi));
    }
    (queries, names)
}

fn now(list: &[i64], (kind, lo, hi): (Kind, u32, u32)) -> Value {
    let hi = list.len().min(hi as usize);
    plain(kind, &list[hi.min(lo as usize)..hi])
}

/// Each note is the plain value at its edit, edits rise, and the last told are the values at the end.
fn check_told(told: &[Vec<Note>], names: &BTreeMap<String, (Kind, u32, u32)>, did: &BTreeMap<u32, Did>) {
    let (mut list, mut at, mut last) = (Vec::new(), 0, BTreeMap::new());
    for notes in told {
        let edit = notes[0].edit;
        assert!(at < edit || at == 0 && edit == 0, "{at} then {edit}");
        did.range(at + 1..=edit).for_each(|(_, did)| redo(&mut list, did));
        at = edit;
        for note in notes {
            let query = names[note.name()];
            assert_eq!((note.edit, note.kind, note.value), (edit, query.0, now(&list, query)), "{}", note.name());
            assert_ne!(last.insert(note.name(), note.value), Some(note.value));
        }
    }
    did.range(at + 1..).for_each(|(_, did)| redo(&mut list, did));
    for (name, &query) in names {
        let told = last.get(name.as_str()).copied();
        assert_eq!(told.unwrap_or(plain(query.0, &[])), now(&list, query), "{name} at the end");
    }
}

#[test]
fn nothing_is_lost() {
    let shared = Shared::new(Vector::new().unwrap());
    shared.start_workers(2).unwrap();
    let heard = Arc::new([false, false].map(AtomicBool::new));
    let listeners: Vec<_> = [3, 4]
        .into_iter()
        .map(|seed| {
            let (queries, names) = asked(seed);
            let mut subscriber = shared.subscribe(queries).unwrap();
            subscriber.set_pause(Duration::from_micros(200 * (seed - 3)));
            let heard = heard.clone();
            let listen = move || {
                let told = subscriber.inspect(|_| heard[seed as usize - 3].store(true, Ordering::Relaxed));
                told.collect::<Result<Vec<_>, _>>().unwrap()
            };
            (thread::spawn(listen), names)
        })
        .collect();
    let feeders: Vec<_> = (11..15)
        .map(|seed| {
            let (shared, heard) = (shared.clone(), heard.clone());
            thread::spawn(move || {
                let mut did = feed(&shared, seed, 2000);
                until(|| heard.iter().all(|heard| heard.load(Ordering::Relaxed)));
                did.extend(feed(&shared, seed + 10, 2000));
                did
            })
        })
        .collect();
    let receipts: Vec<_> = feeders.into_iter().flat_map(|feeder| feeder.join().unwrap()).collect();
    let vector = shared.close().expect("no other clone is left");

    let did: BTreeMap<u32, Did> = receipts.iter().cloned().collect();
    assert_eq!((did.len(), vector.edits() as usize), (receipts.len(), receipts.len()));
    assert!(did.keys().copied().eq(1..=vector.edits()));
    let mut list = Vec::new();
    did.values().for_each(|did| redo(&mut list, did));
    assert_eq!(vector.to_vec().unwrap(), list);
    for (listener, names) in listeners {
        let told = listener.join().unwrap();
        assert!(told.len() > 1);
        check_told(&told, &names, &did);
    }
}
