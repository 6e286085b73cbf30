//! How many name tests are tried, document 02, Q-13: "for each element and each step of each line, one exactly when the steps
//! before it can be laid so that the step's place would be that element". What a step may follow and what its test fits is in
//! `select`. An attribute test is no name test, and stands on the last step, which is before no other: it is not looked at
//! (reading R-45).

use std::collections::HashMap;

use crate::list::Path;
use crate::select::{fits, may_follow};
use crate::tree::Element;

/// The name tests tried at all elements of the tree, whatever is kept of them: "inside kept entries too". Elements with the
/// same names from the root down have the same number of them, so such names are asked about once.
pub fn count(root: &Element, paths: &[Path]) -> u64 {
    let mut chains = HashMap::new();
    gather(root, &mut Vec::new(), &mut chains);
    let at_each = |names: &[&str]| paths.iter().map(|path| at(path, names)).sum::<u64>();
    chains.iter().map(|(names, elements)| elements * at_each(names)).sum()
}

/// Adds for each element, this one and those under it, one to the names from the root down to it. `above` holds those down to
/// its parent.
fn gather<'a>(element: &Element<'a>, above: &mut Vec<&'a str>, chains: &mut HashMap<Vec<&'a str>, u64>) {
    above.push(element.name);
    *chains.entry(above.clone()).or_insert(0) += 1;
    for child in &element.children {
        gather(child, above, chains);
    }
    above.pop();
}

/// Those of one line at one element whose names from the root down are these. All places at which the steps so far can end
/// are kept, and not the ways there: "one for an element and a step however many layings there are" (reading R-44).
fn at(path: &Path, names: &[&str]) -> u64 {
    let element = names.len();
    // "before the first step is place 0"
    let mut ends = vec![0];
    let mut tried = 0;
    for step in &path.steps {
        let can_stand = |place: usize| ends.iter().any(|&before| may_follow(&step.axis, before, place));
        tried += u64::from(can_stand(element));
        // "place 0 is no element, so no step takes it"
        ends = (1..=element).filter(|&place| fits(&step.test, names[place - 1]) && can_stand(place)).collect();
    }
    tried
}
