// The matcher, in nanoseconds an element: 32 paths of 8 steps on a walk through nested places, beside the same in ordinary Rust; and the
// parts of it by themselves.
use crate::ours::compiled::compile::read;
use crate::ours::compiled::{layout, Compiled};
use crate::ours::document::Open;
use crate::ours::lookup::find::find;
use crate::ours::matcher::fit::{fit_of, Fit};
use crate::ours::matcher::state::MatchState;
use crate::places::{self, Tag, Walk};
use crate::rounds::{medians, work, Work};
use crate::steps::{self, Bits, Flags, Matcher};
use std::hint::black_box;

/// The library's matcher, with a state for each open level.
struct Ours<'a> {
    list: &'a [u8],
    tables: &'a Compiled,
    states: [MatchState; Open::LEVELS],
    level: usize,
}

impl<'a> Ours<'a> {
    fn new(list: &'a [u8], tables: &'a Compiled) -> Self {
        Ours { list, tables, states: [MatchState::fresh(); Open::LEVELS], level: 0 }
    }

    fn fit(&self, name: &[u8]) -> Fit {
        fit_of(self.list, self.tables, name)
    }

    fn find(&self, name: &[u8]) -> usize {
        let t = self.tables;
        let part = |from: usize, to: usize| &t[from..to];
        let (at, len) = (part(layout::AT, layout::LEN), part(layout::LEN, layout::HEAD));
        find(self.list, at, len, part(layout::HEAD, layout::NEXT), part(layout::NEXT, layout::ROWS), name)
    }

    fn start_by(&mut self, fit: Fit) -> usize {
        let state = self.states[self.level];
        self.level += 1;
        self.states[self.level] = state.deeper(fit);
        state.verdict_on(fit) as usize
    }
}

impl Matcher for Ours<'_> {
    fn start(&mut self, name: &[u8]) -> usize {
        self.start_by(self.fit(name))
    }

    fn end(&mut self) {
        self.level -= 1;
    }
}

/// How many elements have each verdict.
type Counts = [usize; 3];

fn count(matcher: &mut impl Matcher, walk: &Walk) -> Counts {
    let mut counts = [0; 3];
    for tag in &walk.tags {
        match tag {
            Tag::Start(_, name) => counts[matcher.start(&walk.text.as_bytes()[name.clone()])] += 1,
            Tag::End => matcher.end(),
        }
    }
    counts
}

/// The same by fits that are ready for each name: no name is looked up.
fn count_by(ours: &mut Ours, fits: &[Fit], walk: &Walk) -> Counts {
    let mut counts = [0; 3];
    for tag in &walk.tags {
        match tag {
            Tag::Start(number, _) => counts[ours.start_by(fits[*number])] += 1,
            Tag::End => ours.end(),
        }
    }
    counts
}

/// Every name of the walk is looked up, and no more.
fn look_up<A>(walk: &Walk, look: impl Fn(&[u8]) -> A) {
    for tag in &walk.tags {
        if let Tag::Start(_, name) = tag {
            black_box(&look(&walk.text.as_bytes()[name.clone()]));
        }
    }
}

pub fn measure() {
    let (list, walk) = (places::list(), places::walk());
    let mut tables = [0; layout::LENGTH];
    read(list.as_bytes(), &mut tables);
    let paths = steps::paths(&list);
    let ours = || Ours::new(list.as_bytes(), &tables);
    let fits: Vec<Fit> = places::names().iter().map(|name| ours().fit(name.as_bytes())).collect();
    let (mut whole, mut by_fits, parts) = (ours(), ours(), ours());
    let (mut bits, mut flags) = (Bits::new(&paths), Flags::new(&paths));
    let counts = count(&mut whole, &walk);
    assert_eq!(counts, count_by(&mut by_fits, &fits, &walk));
    assert_eq!(counts, count(&mut bits, &walk));
    assert_eq!(counts, count(&mut flags, &walk));
    let works: [(&str, Work); 6] = [
        ("ours", work(|| count(&mut whole, black_box(&walk)))),
        ("Rust: HashMap, bits", work(|| count(&mut bits, black_box(&walk)))),
        ("Rust: a flag for each step", work(|| count(&mut flags, black_box(&walk)))),
        ("of ours: names found", work(|| look_up(black_box(&walk), |name| parts.find(name)))),
        ("of ours: fits made", work(|| look_up(black_box(&walk), |name| parts.fit(name)))),
        ("of ours: verdicts and states", work(|| count_by(&mut by_fits, black_box(&fits), black_box(&walk)))),
    ];
    let (names, mut works): (Vec<&str>, Vec<Work>) = works.into_iter().unzip();
    let [_, selected, marked] = counts;
    println!("The matcher: {} paths of 8 steps; {} elements, {selected} selected, {marked} marked", paths.len(), places::ELEMENTS);
    println!("{:<30}{:>12}{:>12}", "what", "ns/element", "times ours");
    let seconds = medians(&mut works);
    for (what, time) in names.iter().zip(&seconds) {
        println!("{what:<30}{:>12.1}{:>12.2}", time * 1e9 / places::ELEMENTS as f64, time / seconds[0]);
    }
}
