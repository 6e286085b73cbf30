//! What a path selects, by trying every choice of places for its steps, as the definition in document 01 reads, with the
//! two steps that Q-6 of document 02 adds and the test of Q-4. The choices are tried one by one and nothing is remembered
//! between them, so a path of many `//` or `/descendant-or-self::` steps on a deep chain of names that nearly fit takes very
//! long.

use crate::list::{AttributeTest, Axis, Path, Step, Test};
use crate::tag::Attribute;
use crate::tree::{Element, Selection};
use crate::value::normal;

/// Notes on every element of the tree how the paths select it. `above` holds the names from the root to its parent.
pub fn mark<'a>(element: &mut Element<'a>, above: &mut Vec<&'a str>, paths: &[Path]) {
    above.push(element.name);
    element.selection = selection(above, &element.attributes, paths);
    for child in &mut element.children {
        mark(child, above, paths);
    }
    above.pop();
}

/// How many elements of the tree are selected, "those inside a kept entry too".
pub fn count(element: &Element) -> u64 {
    let here = u64::from(element.selection != Selection::No);
    here + element.children.iter().map(count).sum::<u64>()
}

/// How the paths select the element whose names from the root down are `names`. A marked path wins over a plain one.
pub fn selection(names: &[&str], attributes: &[Attribute], paths: &[Path]) -> Selection {
    if paths.iter().any(|path| path.is_marked && selects(path, names, attributes)) {
        Selection::Marked
    } else if paths.iter().any(|path| selects(path, names, attributes)) {
        Selection::Plain
    } else {
        Selection::No
    }
}

/// "A path of m steps selects it if places can be chosen for its steps so that: the last step has place k". The test is the
/// last step's, so it is of the element itself.
fn selects(path: &Path, names: &[&str], attributes: &[Attribute]) -> bool {
    path.attribute.as_ref().map_or(true, |test| passes(test, attributes)) && can_be_laid(&path.steps, names, names.len())
}

/// "The element passes if it has that attribute and the value ... equals it byte for byte." One that is not there equals
/// no value, the empty one neither (reading R-15).
fn passes(test: &AttributeTest, attributes: &[Attribute]) -> bool {
    attributes.iter().any(|attribute| attribute.name == test.name && normal(attribute.value) == test.value)
}

/// Can places be chosen for these steps so that the last of them has this place? Places count from 1; "before the first
/// step is place 0", so no steps at all have place 0 and no other. "place 0 is no element, so no step takes it".
pub fn can_be_laid(steps: &[Step], names: &[&str], place: usize) -> bool {
    let (last, earlier) = match steps.split_last() {
        Some(split) => split,
        None => return place == 0,
    };
    if place == 0 || !fits(&last.test, names[place - 1]) {
        return false;
    }
    // "Places may now repeat", so the place itself is tried as well.
    (0..=place).any(|before| may_follow(&last.axis, before, place) && can_be_laid(earlier, names, before))
}

/// "each name test equals the name there, `*` any name"
pub fn fits(test: &Test, name: &str) -> bool {
    match test {
        Test::Any => true,
        Test::Name(wanted) => *wanted == name,
    }
}

/// "a child step stands exactly one place below the step before, a descendant step at least one"; "Self takes the same
/// place as the step before, descendant-or-self that place or any below".
pub fn may_follow(axis: &Axis, before: usize, place: usize) -> bool {
    match axis {
        Axis::Child => place == before + 1,
        Axis::Descendant => place >= before + 1,
        Axis::Itself => place == before,
        Axis::DescendantOrSelf => place >= before,
    }
}
