// Random lists, and random walks through trees of names: what each list says of each element. The draws are those that the program
// crates/walks makes; the verdicts are those of plain/select.rs, from the names that are open.
use crate::plain::paths;
use crate::plain::select::{verdict, Kind, Path, Step, Verdict};

/// Numbers drawn one after the other.
struct Draw(u64);

impl Draw {
    /// A number below n; 0 where n is 0.
    fn below(&mut self, n: u64) -> u64 {
        self.0 = (self.0 * 1664525 + 1013904223) % (1 << 32);
        (self.0 >> 16).checked_rem(n).unwrap_or(0)
    }
}

fn sum(numbers: impl Iterator<Item = u64>) -> u64 {
    numbers.fold(0, |sum, x| (sum * 31 + x) % (1 << 32))
}

/// What a round is like. A list has `lines` lines and a number more, drawn below `more_lines`; the steps of a line likewise. A step has a
/// number drawn below 8: below `descendants` it is a descendant step, else below `selves` a self step, else below `or_selves` a
/// descendant-or-self step. Of 8 tests `any` are `*`. Names are drawn below `listed` in a list and below `met` in a walk; of 16 events
/// `starts` are start tags.
struct Mode {
    lines: u64,
    more_lines: u64,
    steps: u64,
    more_steps: u64,
    listed: u64,
    met: u64,
    descendants: u64,
    selves: u64,
    or_selves: u64,
    any: u64,
    starts: u64,
}

/// In the order of the fields: few names in deep trees; many names; long paths; many lines; self steps; descendant-or-self steps; many
/// steps at few places; an empty list.
const MODES: [[u64; 11]; 8] = [
    [1, 7, 1, 5, 2, 3, 4, 4, 4, 1, 10],
    [1, 32, 1, 3, 200, 220, 5, 5, 5, 1, 9],
    [1, 8, 12, 5, 1, 2, 3, 3, 3, 4, 12],
    [29, 4, 2, 4, 5, 7, 4, 5, 6, 1, 10],
    [1, 7, 2, 5, 2, 3, 3, 6, 6, 3, 10],
    [1, 7, 1, 5, 3, 4, 2, 2, 6, 1, 10],
    [1, 8, 12, 5, 1, 2, 1, 4, 7, 4, 12],
    [0, 0, 0, 0, 0, 3, 0, 0, 0, 0, 9],
];

/// Four rounds of each mode, and one with an empty list.
fn mode(round: u64) -> Mode {
    let [lines, more_lines, steps, more_steps, listed, met, descendants, selves, or_selves, any, starts] = MODES[(round % 29 / 4) as usize];
    Mode { lines, more_lines, steps, more_steps, listed, met, descendants, selves, or_selves, any, starts }
}

fn kind(drawn: u64, m: &Mode) -> Kind {
    match drawn {
        k if k < m.descendants => Kind::Descendant,
        k if k < m.selves => Kind::SelfStep,
        k if k < m.or_selves => Kind::DescendantOrSelf,
        _ => Kind::Child,
    }
}

/// Short names, an accented letter in two spellings, the letter by itself; then pairs of letters from c to v.
fn name(k: u64) -> Vec<u8> {
    let short = ["a", "\u{E9}", "e\u{301}", "ab", "b", "e"];
    match short.get(k as usize) {
        Some(s) => s.as_bytes().to_vec(),
        None => vec![b'c' + (k / 20 % 20) as u8, b'c' + (k % 20) as u8],
    }
}

fn list(draw: &mut Draw, m: &Mode) -> Vec<Path> {
    let mut list = Vec::new();
    for _ in 0..m.lines + draw.below(m.more_lines) {
        let mut steps = Vec::new();
        for _ in 0..m.steps + draw.below(m.more_steps) {
            let kind = kind(draw.below(8), m);
            let any = draw.below(8) < m.any;
            steps.push(Step { kind, name: if any { None } else { Some(name(draw.below(m.listed))) } });
        }
        list.push(Path { steps, marked: draw.below(4) == 0 });
    }
    list
}

fn text(list: &[Path]) -> Vec<u8> {
    let mut text = Vec::new();
    for path in list {
        for step in &path.steps {
            text.extend_from_slice(match step.kind {
                Kind::Child => b"/",
                Kind::Descendant => b"//",
                Kind::SelfStep => b"/self::",
                Kind::DescendantOrSelf => b"/descendant-or-self::",
            });
            text.extend_from_slice(step.name.as_deref().unwrap_or(b"*"));
        }
        text.extend_from_slice(if path.marked { b" #\n" } else { b"\n" });
    }
    text
}

fn round(r: u64) {
    let m = mode(r);
    let mut draw = Draw(r * 7919);
    let list = list(&mut draw, &m);
    let text = text(&list);
    assert_eq!(paths::answer(&text), (0, 0));
    let (mut open, mut levels, mut drawn, mut said) = (Vec::new(), Vec::new(), Vec::new(), Vec::new());
    for _ in 0..300 {
        if draw.below(16) >= m.starts {
            open.pop();
        } else if open.len() < 64 {
            let k = draw.below(m.met);
            open.push(name(k));
            levels.push(open.len() as u64);
            drawn.push(k);
            said.push(verdict(&list, &open));
        }
    }
    let count = |of: Verdict| said.iter().filter(|&&v| v as u64 == of as u64).count();
    println!(
        "round {r} {} {} {} {} {} {} {} {}",
        text.len(),
        sum(text.iter().map(|&b| b as u64)),
        levels.iter().max().unwrap_or(&0),
        sum(drawn.into_iter()),
        count(Verdict::Unselected),
        count(Verdict::Selected),
        count(Verdict::Marked),
        sum(levels.iter().zip(&said).map(|(level, &v)| level * 3 + v as u64)),
    );
}

pub fn print() {
    (0..400).for_each(round);
}
