// Matching in ordinary Rust, twice, from the words of document 01. `Bits` has a number for each path, as the library has, and a HashMap for
// names. `Flags` is the plain way: a flag for each step of each path, and the name is compared with every step that waits for one.
use std::collections::HashMap;

/// What goes down and up through elements. An element is unselected, 0, selected, 1, or selected by a marked path, 2.
pub trait Matcher {
    fn start(&mut self, name: &[u8]) -> usize;
    fn end(&mut self);
}

pub struct Step<'a> {
    pub descends: bool,
    pub test: Option<&'a [u8]>, // nothing is `*`
}

pub struct Path<'a> {
    pub steps: Vec<Step<'a>>,
    pub marked: bool,
}

fn path(line: &str) -> Path<'_> {
    let (text, marked) = line.strip_suffix(" #").map_or((line, false), |text| (text, true));
    let mut steps = Vec::new();
    let mut descends = false;
    for part in text.split('/').skip(1) {
        if part.is_empty() {
            descends = true;
            continue;
        }
        steps.push(Step { descends, test: Some(part.as_bytes()).filter(|&name| name != b"*") });
        descends = false;
    }
    Path { steps, marked }
}

/// The paths of a sound list.
pub fn paths(list: &str) -> Vec<Path<'_>> {
    list.lines().map(path).collect()
}

fn verdict(selected: bool, marked: bool) -> usize {
    if marked {
        return 2;
    }
    selected as usize
}

type Row = [u16; 32];

pub struct Bits<'a> {
    numbers: HashMap<&'a [u8], usize>,
    rows: Vec<Row>, // row 0 is that of a name that no step has
    descends: Row,
    lasts: Row,
    marks: Row,
    states: Vec<Row>,
}

impl<'a> Bits<'a> {
    pub fn new(paths: &[Path<'a>]) -> Self {
        let mut numbers = HashMap::new();
        for name in paths.iter().flat_map(|path| &path.steps).filter_map(|step| step.test) {
            let number = numbers.len() + 1;
            numbers.entry(name).or_insert(number);
        }
        let mut rows = vec![[0; 32]; numbers.len() + 1];
        let (mut descends, mut lasts, mut marks) = ([0; 32], [0; 32], [0; 32]);
        for (p, path) in paths.iter().enumerate() {
            for (j, step) in path.steps.iter().enumerate() {
                match step.test {
                    Some(name) => rows[numbers[name]][p] |= 1 << j,
                    None => rows.iter_mut().for_each(|row| row[p] |= 1 << j),
                }
                descends[p] |= (step.descends as u16) << j;
                lasts[p] = 1 << j;
            }
            marks[p] = if path.marked { lasts[p] } else { 0 };
        }
        Bits { numbers, rows, descends, lasts, marks, states: vec![[1; 32]] }
    }
}

impl Matcher for Bits<'_> {
    fn start(&mut self, name: &[u8]) -> usize {
        let passes = &self.rows[self.numbers.get(name).copied().unwrap_or(0)];
        let state = self.states.last().unwrap();
        let mut below = [0; 32];
        let (mut selected, mut marked) = (0, 0);
        for p in 0..32 {
            let hit = state[p] & passes[p];
            selected |= hit & self.lasts[p];
            marked |= hit & self.marks[p];
            below[p] = hit << 1 | state[p] & self.descends[p];
        }
        self.states.push(below);
        verdict(selected != 0, marked != 0)
    }

    fn end(&mut self) {
        self.states.pop();
    }
}

pub struct Flags<'a> {
    paths: &'a [Path<'a>],
    waiting: Vec<Vec<bool>>, // for each open level, all steps of all paths
}

impl<'a> Flags<'a> {
    pub fn new(paths: &'a [Path<'a>]) -> Self {
        let first = paths.iter().flat_map(|path| (0..path.steps.len()).map(|j| j == 0));
        Flags { paths, waiting: vec![first.collect()] }
    }
}

impl Matcher for Flags<'_> {
    fn start(&mut self, name: &[u8]) -> usize {
        let waiting = self.waiting.last().unwrap();
        let mut below = vec![false; waiting.len()];
        let (mut selected, mut marked) = (false, false);
        let mut from = 0;
        for path in self.paths {
            for (j, step) in path.steps.iter().enumerate().filter(|(j, _)| waiting[from + j]) {
                below[from + j] |= step.descends;
                if step.test.map_or(true, |test| test == name) {
                    if j + 1 < path.steps.len() {
                        below[from + j + 1] = true;
                    } else {
                        selected = true;
                        marked |= path.marked;
                    }
                }
            }
            from += path.steps.len();
        }
        self.waiting.push(below);
        verdict(selected, marked)
    }

    fn end(&mut self) {
        self.waiting.pop();
    }
}
