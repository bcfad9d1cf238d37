// Windows that slide, in plain Rust.

// A queue as two stacks: the older elements, of which each has what it and those behind it come to, and the newer ones with what they come to.
struct Stacks<S> {
    older: Vec<S>,
    newer: Vec<S>,
    of_newer: S,
}

impl<S: Summary> Stacks<S> {
    fn new(elements: &[i64]) -> Stacks<S> {
        let mut stacks = Stacks { older: Vec::new(), newer: Vec::new(), of_newer: S::EMPTY };
        elements.iter().for_each(|x| stacks.push(*x));
        stacks
    }

    fn push(&mut self, x: i64) {
        self.newer.push(S::of(x));
        self.of_newer = self.of_newer.join(S::of(x));
    }

    fn pop(&mut self) {
        if self.older.is_empty() {
            let mut sum = S::EMPTY;
            while let Some(one) = self.newer.pop() {
                sum = one.join(sum);
                self.older.push(sum);
            }
            self.of_newer = S::EMPTY;
        }
        self.older.pop();
    }

    fn value(&self) -> S {
        self.older.last().map_or(self.of_newer, |sum| sum.join(self.of_newer))
    }
}

// A segment tree whose leaves are a ring: the oldest is overwritten, and the root is the value, if a kind doesn't depend on order.
struct Ring<S> {
    tree: Tree<S>,
    at: usize,
    size: usize,
}

impl<S: Summary> Ring<S> {
    fn new(elements: &[i64]) -> Ring<S> {
        Ring { tree: Tree::new(elements), at: 0, size: elements.len() }
    }

    fn push(&mut self, x: i64) -> S {
        self.tree.write(self.at, x);
        self.at = if self.at + 1 == self.size { 0 } else { self.at + 1 };
        self.tree.nodes[1]
    }

    // Overwrites the element at a place from the oldest on.
    fn write(&mut self, place: usize, x: i64) -> S {
        self.tree.write((self.at + place) % self.size, x);
        self.tree.nodes[1]
    }
}

// The sum of the last elements; and those of them that may become the greatest, which fall.
struct Candidates {
    items: VecDeque<i64>,
    sum: i64,
    falling: VecDeque<(u64, i64)>,
    count: u64,
    size: usize,
}

impl Candidates {
    fn new(elements: &[i64]) -> Candidates {
        let mut candidates = Candidates { items: VecDeque::new(), sum: 0, falling: VecDeque::new(), count: 0, size: elements.len() };
        for x in elements {
            candidates.push(*x);
        }
        candidates
    }

    fn push(&mut self, x: i64) -> (Sum, Greatest) {
        if self.items.len() == self.size {
            self.sum = self.sum.wrapping_sub(self.items.pop_front().unwrap());
        }
        self.items.push_back(x);
        self.sum = self.sum.wrapping_add(x);
        while self.falling.back().is_some_and(|(_, least)| *least <= x) {
            self.falling.pop_back();
        }
        self.count += 1;
        self.falling.push_back((self.count, x));
        if self.falling[0].0 + self.size as u64 <= self.count {
            self.falling.pop_front();
        }
        (Sum(self.sum), Greatest(self.falling[0].1))
    }
}
