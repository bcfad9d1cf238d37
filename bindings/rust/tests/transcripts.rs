//! The journal and transcripts. The texts and what an audit says of them are rows of `examples/rows`.

use livevec::{Edit, FrontVerdict, Kind, Limits, NotRestored, Recorded, Refusal, Value, Vector, Verdict};

const SOUND: &str = "livevec 1\nj push 513\nj push 768\na 1 sum 0 1 513\na 2 least 0 2 513\na 2 greatest 0 2 768\na 2 best 0 2 1281\n\
a 2 affine 0 2 6 3\na 2 automaton 0 2 2 6 2 6 2 6 2 6\nend\n";

/// Each edit is told as it was made.
#[test]
fn a_journal_has_each_edit() -> Result<(), Refusal> {
    let mut vector = Vector::new()?;
    vector.extend_from_slice(&[-4, 6])?;
    vector.write(1, i64::MIN)?;
    vector.swap(0, 1)?;
    vector.reserve(9)?;
    vector.pop()?;
    vector.truncate(0)?;
    assert_eq!(vector.pop(), Err(Refusal::Empty));
    let edits = [
        Edit::Push(-4),
        Edit::Push(6),
        Edit::Write { index: 1, value: i64::MIN },
        Edit::Swap { first: 0, second: 1 },
        Edit::Reserve(9),
        Edit::Pop,
        Edit::Truncate(0),
    ];
    for from in 0..=7 {
        assert_eq!(vector.journal(from)?, edits[from as usize..]);
    }
    assert_eq!(vector.journal(u32::MAX)?, []);
    Ok(())
}

/// Answers by each kind, as they were given.
#[test]
fn a_text_has_each_kind() -> Result<(), Refusal> {
    let mut vector = Vector::new()?;
    vector.push(513)?;
    let mut answers = vec![Recorded { edit: vector.edits(), lo: 0, hi: 1, value: vector.value(Kind::Sum, ..)? }];
    vector.push(768)?;
    for kind in &Kind::ALL[1..] {
        answers.push(Recorded { edit: vector.edits(), lo: 0, hi: 2, value: vector.value(*kind, ..)? });
    }
    let text = vector.transcript(&answers)?;
    assert_eq!(text, SOUND);
    assert_eq!(Verdict::of(text.as_bytes())?, Verdict::Yes);
    answers[1].value = Value::Least(None);
    assert_eq!(Verdict::of(vector.transcript(&answers)?.as_bytes())?, Verdict::No(5));
    answers[5].edit = 1;
    assert_eq!(vector.transcript(&answers), Err(Refusal::NotInOrder));
    // an index that no vector has isn't cut to one that there is
    let wide = Recorded { lo: 1 << 32, ..answers[0] };
    assert_eq!(vector.transcript(&[wide]), Err(Refusal::OutOfRange { size: vector.len() }));
    Ok(())
}

/// A total of more than 64 bits, and one of no elements.
#[test]
fn a_text_has_wide_totals() -> Result<(), Refusal> {
    let mut vector = Vector::new()?;
    vector.extend_from_slice(&[i64::MIN, 0, i64::MAX, i64::MAX])?;
    let none = Recorded { edit: 0, lo: 0, hi: 0, value: Value::Best(None) };
    let least = Recorded { edit: 4, lo: 0, hi: 1, value: vector.value(Kind::Best, 0..1)? };
    let best = Recorded { edit: 4, lo: 0, hi: 4, value: vector.value(Kind::Best, ..)? };
    let text = vector.transcript(&[none, least, best])?;
    assert!(text.ends_with("a 0 best 0 0 none\na 4 best 0 1 -9223372036854775808\na 4 best 0 4 18446744073709551614\nend\n"), "{text}");
    assert_eq!(Verdict::of(text.as_bytes())?, Verdict::Yes);
    Ok(())
}

#[test]
fn an_audit_names_a_line() -> Result<(), Refusal> {
    assert_eq!(Verdict::of(b"livevec 1\nj pop\nnonsense\n")?, Verdict::No(2));
    assert_eq!(Verdict::of(b"livevec 1\nj push 5\na 1 sum 0 1 5\nj push 6\nend\n")?, Verdict::Bad(4));
    assert_eq!(Verdict::of(b"")?, Verdict::Bad(1));
    assert_eq!(FrontVerdict::of(b"")?, FrontVerdict::Front { edits: 0, answers: 0 });
    assert_eq!(FrontVerdict::of(b"livevec 1\nj push 5\na 1 sum 0 1 6\nj push 6\n")?, FrontVerdict::No(3));
    assert_eq!(FrontVerdict::of(b"livevec 1\nend\nend\n")?, FrontVerdict::Bad(3));
    Ok(())
}

#[test]
fn a_front_is_made_a_vector() -> Result<(), NotRestored> {
    let mut vector = Vector::restore(SOUND.as_bytes(), Limits::GREATEST)?;
    assert_eq!(vector.push(9).map(|did| (did.edit, did.index)), Ok((3, 2)));
    assert_eq!(vector.sum(..), Ok(1290));
    let few = Limits::new(17, 1).map_err(NotRestored::Refused)?;
    assert_eq!(Vector::restore(SOUND.as_bytes(), few).err(), Some(NotRestored::Stopped { edits: 1, refusal: Refusal::Worn }));
    let least = Vector::restore_of(Kind::Least, SOUND.as_bytes(), Limits::GREATEST)?;
    assert_eq!((least.kind(), least.least(..), least.sum(..)), (Some(Kind::Least), Ok(Some(513)), Err(Refusal::BadKind)));
    let bad = Vector::restore(b"livevec 1\nj push 5\nj pop\nj pop\n", Limits::GREATEST);
    assert_eq!(bad.err(), Some(NotRestored::NoFront(FrontVerdict::No(4))));
    Ok(())
}
