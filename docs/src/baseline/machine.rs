// A list as bits. Each step of each path has a bit in one of N words; the bits of a path stand side by side in one word. A state says which
// steps may take the next place below: those whose step before has a place that fits. There is one state for each open level.

use crate::list::{Kind, Path, Test};
use crate::names::Names;

pub type Bits<const N: usize> = [u64; N];

/// Where the bits of each path begin. Four paths of 16 steps fill a word, so 32 paths never take more than eight.
fn layout(paths: &[Path]) -> Vec<usize> {
    let mut next = 0;
    let place = |path: &Path| {
        if next % 64 + path.steps.len() > 64 {
            next = (next / 64 + 1) * 64;
        }
        next += path.steps.len();
        next - path.steps.len()
    };
    paths.iter().map(place).collect()
}

/// How many words a list's steps take.
pub fn words(paths: &[Path]) -> usize {
    layout(paths).last().map_or(0, |from| from / 64 + 1)
}

pub struct Machine<'a, const N: usize> {
    names: Names<'a>,
    /// The steps that a name passes, by its number; row 0 is that of all other names.
    rows: Vec<Bits<N>>,
    /// The state above the root: first steps, but self.
    pub fresh: Bits<N>,
    /// Steps that take a place below that of the step before.
    below: Bits<N>,
    /// Steps that wait on as it goes deeper: descendant, descendant-or-self.
    waiting: Bits<N>,
    /// Steps that may take the place of the step before: self, descendant-or-self, but no first steps.
    staying: Bits<N>,
    has_staying: bool,
    pub last: Bits<N>,
    pub marked: Bits<N>,
    /// Last steps with a test.
    pub tested: Bits<N>,
    pub has_tests: bool,
    /// Tests, each once, and the test of each bit.
    pub tests: Vec<Test<'a>>,
    pub test_of: Vec<u8>,
}

fn set<const N: usize>(bits: &mut Bits<N>, bit: usize, on: bool) {
    bits[bit / 64] |= u64::from(on) << (bit % 64);
}

impl<'a, const N: usize> Machine<'a, N> {
    pub fn new(paths: &[Path<'a>]) -> Self {
        let count = paths.iter().map(|path| path.steps.len()).sum();
        let none = [0; N];
        let mut machine = Machine {
            names: Names::with_room(count),
            rows: vec![none],
            fresh: none,
            below: none,
            waiting: none,
            staying: none,
            has_staying: false,
            last: none,
            marked: none,
            tested: none,
            has_tests: false,
            tests: Vec::new(),
            test_of: vec![0; 64 * N],
        };
        let mut any = none;
        for (path, from) in paths.iter().zip(layout(paths)) {
            machine.take(path, from, &mut any);
        }
        machine.rows.iter_mut().for_each(|row| row.iter_mut().zip(any).for_each(|(bits, any)| *bits |= any));
        machine.has_staying = machine.staying != none;
        machine.has_tests = machine.tested != none;
        machine
    }

    /// The bits of a path; `any` gets those of steps with `*`.
    fn take(&mut self, path: &Path<'a>, from: usize, any: &mut Bits<N>) {
        for (j, step) in path.steps.iter().enumerate() {
            let bit = from + j;
            match step.name {
                None => set(any, bit, true),
                Some(name) => {
                    let number = self.names.number(name.as_bytes());
                    self.rows.resize(self.rows.len().max(number + 1), [0; N]);
                    set(&mut self.rows[number], bit, true);
                }
            }
            set(&mut self.fresh, bit, j == 0 && step.kind != Kind::SelfStep);
            set(&mut self.below, bit, j > 0 && step.kind != Kind::SelfStep);
            set(&mut self.waiting, bit, matches!(step.kind, Kind::Descendant | Kind::DescendantOrSelf));
            set(&mut self.staying, bit, j > 0 && matches!(step.kind, Kind::SelfStep | Kind::DescendantOrSelf));
        }
        let last = from + path.steps.len() - 1;
        set(&mut self.last, last, true);
        set(&mut self.marked, last, path.marked);
        if let Some(test) = path.test {
            set(&mut self.tested, last, true);
            let number = self.tests.iter().position(|&other| other == test).unwrap_or(self.tests.len());
            self.tests.resize(self.tests.len().max(number + 1), test);
            self.test_of[last] = number as u8;
        }
    }

    /// The steps that can have the place of an element, its name standing at a place of the document; and the state below it.
    #[inline(always)]
    pub fn deeper(&self, state: &Bits<N>, doc: &[u8], from: usize, to: usize) -> (Bits<N>, Bits<N>) {
        let passes = &self.rows[self.names.find(doc, from, to)];
        let (mut hits, mut below) = ([0; N], [0; N]);
        for i in 0..N {
            hits[i] = state[i] & passes[i];
        }
        if self.has_staying {
            for i in 0..N {
                hits[i] |= stayed(hits[i], passes[i] & self.staying[i]);
            }
        }
        for i in 0..N {
            below[i] = hits[i] << 1 & self.below[i] | state[i] & self.waiting[i];
        }
        (hits, below)
    }
}

/// Steps that take the same place, one after the other, from those that have it: a sum carries through a run of them.
fn stayed(hits: u64, open: u64) -> u64 {
    let seeds = hits << 1 & open;
    (open.wrapping_add(seeds) ^ open) & open | seeds
}
