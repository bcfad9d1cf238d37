//! The board from outside. Expected values are worked out by hand from the rules.

use std::thread;

use livevec::{Board, Closed, Kind, Limits, NotClosed, Popped, Pushed, Refusal, Seat, Value, Written};

fn small(kind: Kind) -> (Board, Seat) {
    let mut board = Board::with_limits(kind, Limits::new(1, 100).unwrap(), 1).unwrap();
    let seat = board.sit().unwrap();
    (board, seat)
}

#[test]
fn a_board_has_limits_and_seats() {
    assert_eq!(Board::with_limits(Kind::Sum, Limits::GREATEST, 1).err(), Some(Refusal::BadLimits));
    assert_eq!(Board::new(Kind::Sum, 0).err(), Some(Refusal::BadLimits));
    assert_eq!(Board::new(Kind::Sum, 9).err(), Some(Refusal::BadLimits));
    let mut board = Board::new(Kind::Affine, 2).unwrap();
    let (one, _two) = (board.sit().unwrap(), board.sit().unwrap());
    assert_eq!(board.sit().err(), Some(Refusal::NoSeat));
    drop(one);
    let again = board.sit().unwrap();
    assert_eq!(board.sit().err(), Some(Refusal::NoSeat));
    assert_eq!((board.kind(), again.len()), (Kind::Affine, 0));
}

#[test]
fn each_edit_has_its_receipt() {
    let (board, mut seat) = small(Kind::Sum);
    assert_eq!((seat.is_empty(), seat.pop(1)), (true, Err(Refusal::Empty)));
    assert_eq!(seat.push(-32_768, 1), Ok(Pushed { edit: 1, index: 0 }));
    assert_eq!(seat.push(32_767, 0), Ok(Pushed { edit: 2, index: 1 }));
    assert_eq!((seat.push(32_768, 1), seat.write(0, i64::MIN, 1)), (Err(Refusal::TooWide), Err(Refusal::TooWide)));
    assert_eq!(seat.write(0, 5, 1), Ok(Written { edit: 3, before: -32_768 }));
    assert_eq!(seat.write(2, 5, 1), Err(Refusal::OutOfRange { size: 2 }));
    assert_eq!((seat.get(0), seat.get(2)), (Ok(5), Err(Refusal::OutOfRange { size: 2 })));
    assert_eq!(seat.pop(1), Ok(Popped { edit: 4, value: 32_767 }));
    for element in 1..8 {
        seat.push(element, 1).unwrap();
    }
    assert_eq!((seat.push(8, 1), seat.len()), (Err(Refusal::Full), 8));
    // a seat stays good without its board
    drop(board);
    assert_eq!(seat.pop(1), Ok(Popped { edit: 12, value: 7 }));
}

#[test]
fn a_board_reduces_by_its_kind() {
    // as worked out in bindings/c/tests.c
    let wanted = [
        (Kind::Sum, Value::Sum(2050), Value::Sum(0)),
        (Kind::Least, Value::Least(Some(-6)), Value::Least(None)),
        (Kind::Greatest, Value::Greatest(Some(1027)), Value::Greatest(None)),
        (Kind::Best, Value::Best(Some(2052)), Value::Best(None)),
        (Kind::Affine, Value::Affine(0, 3949), Value::Affine(1, 0)),
        (Kind::Automaton, Value::Automaton([7; 8]), Value::Automaton([0, 1, 2, 3, 4, 5, 6, 7])),
    ];
    for (kind, all, none) in wanted {
        let (_board, mut seat) = small(kind);
        for element in [4, -6, 1027, 1025] {
            seat.push(element, 1).unwrap();
        }
        let told = seat.reduce(..).unwrap();
        assert_eq!((told.edit, told.cells, told.summaries, told.value), (4, 4, 0, all));
        assert_eq!(seat.reduce(2..2).unwrap().value, none);
        assert_eq!(seat.reduce(..5), Err(Refusal::OutOfRange { size: 4 }));
        #[allow(clippy::reversed_empty_ranges)]
        let backwards = seat.reduce(3..2);
        assert_eq!(backwards, Err(Refusal::BadRange));
    }
}

#[test]
fn a_board_closes_once_its_seats_are_dropped() {
    let (board, mut seat) = small(Kind::Least);
    let refused = board.close().unwrap_err();
    assert_eq!(refused.to_string(), "the board stayed open: seats are out");
    let board = refused.board;
    seat.push(11, 1).unwrap();
    seat.push(-12, 1).unwrap();
    drop(seat);
    let closed = board.close().unwrap();
    assert_eq!((closed.edits(), closed.len(), closed.get(1)), (2, 2, Ok(-12)));
    assert_eq!((closed.to_vec(), closed.get(2)), (Ok(vec![11, -12]), Err(Refusal::OutOfRange { size: 2 })));
    assert_eq!(closed.read_into(&mut [0]), Err(Refusal::ShortBuffer { wanted: 2 }));
    assert_eq!(closed.read_into(&mut [0; 3]), Ok(&mut [11, -12][..]));
    assert!(Board::new(Kind::Sum, 8).unwrap().close().unwrap().is_empty());
}

#[test]
fn boards_and_seats_may_be_sent() {
    fn sent<T: Send>() {}
    sent::<Board>();
    sent::<Seat>();
    sent::<Closed>();
    sent::<NotClosed>();
}

#[test]
fn refusals_have_their_numbers() {
    let wanted = [
        (Refusal::TooWide, 16),
        (Refusal::Contended { edit: 3 }, 17),
        (Refusal::Overtaken { edit: 4 }, 18),
        (Refusal::NoSeat, 105),
        (Refusal::SeatsOut, 106),
    ];
    for (refusal, number) in wanted {
        assert_eq!((refusal.number(), refusal.is_outrun()), (number, number == 17 || number == 18));
    }
    assert_eq!(Refusal::Contended { edit: 3 }.to_string(), "contended: edit 3 came first");
}

const THREADS: i64 = 8;
const ROUNDS: usize = 200;

/// Makes a call again until no other seat's edit stands in its way.
fn insist<T>(mut call: impl FnMut() -> Result<T, Refusal>) -> Result<T, Refusal> {
    loop {
        match call() {
            Err(refusal) if refusal.is_outrun() => thread::yield_now(),
            answer => return answer,
        }
    }
}

/// Pushes the number, then writes over each of its elements, and sums all the while. Gives its edits and places.
fn play(seat: &mut Seat, number: i64) -> (Vec<u32>, Vec<usize>) {
    let (mut edits, mut places) = (Vec::new(), Vec::new());
    let sums = |seat: &Seat, last: u32| {
        let size = seat.len();
        let told = insist(|| seat.reduce(..size)).unwrap();
        let Value::Sum(sum) = told.value else { panic!("a board of sums tells {told:?}") };
        assert!(told.edit >= last && sum >= size as i64 && sum <= size as i64 * (100 + THREADS));
    };
    for _ in 0..ROUNDS {
        let did = insist(|| seat.push(number, 3)).unwrap();
        edits.push(did.edit);
        places.push(did.index);
        sums(seat, did.edit);
    }
    for (round, &place) in places.iter().enumerate() {
        let did = insist(|| seat.write(place, 100 + number, 3)).unwrap();
        assert_eq!(did.before, number);
        edits.push(did.edit);
        insist(|| seat.refresh(round as u32 / 8)).unwrap();
        sums(seat, did.edit);
    }
    assert!(edits.is_sorted_by(|before, after| before < after));
    (edits, places)
}

#[test]
fn eight_threads_share_one_list_of_edits() {
    let mut board = Board::new(Kind::Sum, 8).unwrap();
    let mut seats: Vec<Seat> = (0..THREADS).map(|_| board.sit().unwrap()).collect();
    let played: Vec<(Vec<u32>, Vec<usize>)> = thread::scope(|scope| {
        let threads: Vec<_> = seats.iter_mut().zip(1..).map(|(seat, number)| scope.spawn(move || play(seat, number))).collect();
        threads.into_iter().map(|thread| thread.join().unwrap()).collect()
    });
    // 200 elements of each of 101 to 108
    assert_eq!(seats[0].reduce(..).unwrap().value, Value::Sum(200 * (8 * 100 + 36)));
    drop(seats);
    let closed = board.close().unwrap();
    let elements = closed.to_vec().unwrap();
    let (mut edits, mut places) = (Vec::new(), Vec::new());
    for (number, (its_edits, its_places)) in (1..).zip(&played) {
        assert!(its_places.iter().all(|&place| elements[place] == 100 + number));
        edits.extend_from_slice(its_edits);
        places.extend_from_slice(its_places);
    }
    edits.sort_unstable();
    places.sort_unstable();
    assert!(edits.into_iter().eq(1..=closed.edits()) && closed.edits() == 3200);
    assert!(places.into_iter().eq(0..closed.len()) && closed.len() == 1600);
}
