// Turns of edits and questions at a `VecDeque`, whose answers come to one number.

#[derive(Default)]
struct Window {
    items: VecDeque<i64>,
    first: u64,
    edits: u64,
}

// What a refusal has for a number.
const EMPTY: u64 = 2;
const OUT_OF_RANGE: u64 = 3;

impl Window {
    fn size(&self) -> u64 {
        self.first + self.items.len() as u64
    }

    fn at(&self, index: u64) -> Option<usize> {
        (self.first <= index && index < self.size()).then(|| (index - self.first) as usize)
    }

    fn edit(&mut self) -> u64 {
        self.edits += 1;
        self.edits
    }

    // What a turn is answered, as one number; a refusal by its own.
    fn turn(&mut self, number: u64, kept: u64) -> u64 {
        let (held, first, size) = (self.items.len() as u64, self.first, self.size());
        if held > kept {
            return self.expire(size - kept / 8 * 7);
        }
        let place = |number: u64| first + (number >> 8) % held.max(1);
        match pick(number, 64) {
            0..=49 => self.push(element(number)),
            50 => self.push_four(number),
            51 => self.write_two(place(number), place(other(number)), number),
            52 => match self.items.pop_back() {
                Some(value) => mixed(self.edit(), value as u64),
                None => EMPTY,
            },
            53 => self.expire(first + number % 9),
            54..=57 => self.write(place(number), element(number)),
            58..=59 => self.swap(place(number), place(other(number))),
            60 => self.truncate(number % 5),
            _ => self.ask(place(number), number),
        }
    }

    fn push(&mut self, x: i64) -> u64 {
        self.items.push_back(x);
        mixed(self.edit(), self.size() - 1)
    }

    fn push_four(&mut self, number: u64) -> u64 {
        let (x, y, z) = (element(number), element(other(number)), element(next(number)));
        self.items.extend([x, y, z, x]);
        self.edits += 4;
        self.edits
    }

    fn write_two(&mut self, first: u64, second: u64, number: u64) -> u64 {
        let (Some(a), Some(b)) = (self.at(first), self.at(second)) else {
            return OUT_OF_RANGE;
        };
        for (at, x) in [(a, element(number)), (b, element(other(number))), (a, element(next(number)))] {
            self.items[at] = x;
        }
        self.edits += 3;
        self.edits
    }

    fn expire(&mut self, index: u64) -> u64 {
        if index > self.size() {
            return OUT_OF_RANGE;
        }
        let dropped = index - self.first;
        self.items.drain(..dropped as usize);
        self.first = index;
        mixed(self.edit(), dropped)
    }

    fn write(&mut self, index: u64, x: i64) -> u64 {
        let Some(at) = self.at(index) else {
            return OUT_OF_RANGE;
        };
        let before = std::mem::replace(&mut self.items[at], x);
        mixed(self.edit(), before as u64)
    }

    fn swap(&mut self, first: u64, second: u64) -> u64 {
        let (Some(a), Some(b)) = (self.at(first), self.at(second)) else {
            return OUT_OF_RANGE;
        };
        self.items.swap(a, b);
        mixed(mixed(self.edit(), self.items[a] as u64), self.items[b] as u64)
    }

    fn truncate(&mut self, dropped: u64) -> u64 {
        let held = self.items.len() as u64;
        if dropped > held {
            return OUT_OF_RANGE;
        }
        self.items.truncate((held - dropped) as usize);
        mixed(self.edit(), dropped)
    }

    // The value by the kind that a number picks: of some hundred elements, and now and then of all behind a place.
    fn ask(&self, lo: u64, number: u64) -> u64 {
        let hi = if (number >> 20) % 4096 == 0 { self.size() } else { lo + 40 + (number >> 24) % 256 };
        if hi > self.size() {
            return OUT_OF_RANGE;
        }
        let range = (lo - self.first) as usize..(hi - self.first) as usize;
        let shown = match (number >> 40) % 6 {
            0 => self.fold::<Sum>(range),
            1 => self.fold::<Least>(range),
            2 => self.fold::<Greatest>(range),
            3 => self.fold::<Best>(range),
            4 => self.fold::<Affine>(range),
            _ => self.fold::<Automaton>(range),
        };
        mixed(self.edits, of_shown(shown))
    }

    fn fold<S: Summary + Into<Shown>>(&self, range: std::ops::Range<usize>) -> Shown {
        self.items.range(range).fold(S::EMPTY, |sum, x| sum.join(S::of(*x))).into()
    }
}

fn show_all_turns(turns: u64, kept: u64) {
    let (mut window, mut told, mut number) = (Window::default(), 0, 1);
    for _ in 0..turns {
        number = next(number);
        told = mixed(told, window.turn(number, kept));
    }
    println!("{turns} turns, {kept} kept: edit {}, first {}, size {}, told {told}", window.edits, window.first, window.size());
}
