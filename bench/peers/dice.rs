// Numbers that look random, each from the one before; and the kinds by name.

const KINDS: [&str; 6] = ["sum", "least", "greatest", "best", "affine", "automaton"];

struct Dice(u64);

impl Dice {
    fn next(&mut self) -> u64 {
        self.0 = self.0.wrapping_mul(6_364_136_223_846_793_005).wrapping_add(1_442_695_040_888_963_407);
        self.0
    }

    fn below(&mut self, end: u64) -> u64 {
        (self.next() >> 33) % end
    }

    fn element(&mut self) -> i32 {
        (self.next() >> 20) as i32
    }
}
