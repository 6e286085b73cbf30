// Numbers that look random, the same at each run: what is measured is made by them.
// One is taken after the other, from a seed.
pub struct Numbers(pub u64);

impl Numbers {
    pub fn below(&mut self, n: usize) -> usize {
        self.0 = self.0.wrapping_mul(6364136223846793005).wrapping_add(1442695040888963407);
        (self.0 >> 33) as usize % n
    }

    /// One of n, of which the first ones come more often.
    pub fn pick(&mut self, n: usize) -> usize {
        self.below(n).min(self.below(n))
    }

    /// Yes, once in n times.
    pub fn once_in(&mut self, n: usize) -> bool {
        self.below(n) == 0
    }

    pub fn of<'a, A>(&mut self, all: &'a [A]) -> &'a A {
        &all[self.below(all.len())]
    }
}
