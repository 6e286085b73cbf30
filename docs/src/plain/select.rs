// What a list says of an element in ordinary Rust, by trying places for the steps of each path, from the words of document 01, "What a path
// selects", and of document 02, Q-6. It shares nothing with the Rattle source.
use std::ops::Range;

#[derive(Clone, Copy)]
pub enum Kind {
    Child,
    Descendant,
    SelfStep,
    DescendantOrSelf,
}

impl Kind {
    /// Where the step before may stand: exactly one place above, at least one, at the same place, at that place or any above.
    fn before(self, place: usize) -> Range<usize> {
        match self {
            Kind::Child => place - 1..place,
            Kind::Descendant => 0..place,
            Kind::SelfStep => place..place + 1,
            Kind::DescendantOrSelf => 0..place + 1,
        }
    }
}

/// A step: its kind, and its name (nothing for `*`).
pub struct Step {
    pub kind: Kind,
    pub name: Option<Vec<u8>>,
}

pub struct Path {
    pub steps: Vec<Step>,
    pub marked: bool,
}

/// What a list says of an element.
#[derive(Clone, Copy)]
pub enum Verdict {
    Unselected,
    Selected,
    Marked,
}

/// Places can be chosen for the steps, the last of which has this place: it passes the name there, and the step before it stands where the
/// kind wants it. Before the first step is place 0, which no step takes. What was tried in vain is not tried again.
fn placed(steps: &[Step], names: &[Vec<u8>], place: usize, vain: &mut Vec<Vec<bool>>) -> bool {
    let (last, before) = match steps.split_last() {
        None => return place == 0,
        Some(parts) => parts,
    };
    if place == 0 || vain[before.len()][place] {
        return false;
    }
    let passes = last.name.as_ref().map_or(true, |name| *name == names[place - 1]);
    let found = passes && last.kind.before(place).any(|p| placed(before, names, p, vain));
    vain[before.len()][place] = !found;
    found
}

/// A path selects the element whose names from the root on are at the places 1 to k: its last step has place k.
fn selects(steps: &[Step], names: &[Vec<u8>]) -> bool {
    let mut vain = vec![vec![false; names.len() + 1]; steps.len()];
    placed(steps, names, names.len(), &mut vain)
}

pub fn verdict(list: &[Path], names: &[Vec<u8>]) -> Verdict {
    let by = |marked: bool| list.iter().any(|path| path.marked >= marked && selects(&path.steps, names));
    match (by(true), by(false)) {
        (true, _) => Verdict::Marked,
        (false, true) => Verdict::Selected,
        (false, false) => Verdict::Unselected,
    }
}
