//! Whether a wide list covers a narrow one, document 02, Q-12: "each narrow path is covered by a wide one, marked if the narrow
//! is". Every sending of a wide path's steps is tried, one by one, from the last step back.

use crate::list::{paths, Axis, Path, Step, Test};
use crate::three::Three;
use crate::Numbers;

/// "under 0 its second number is 1 if every narrow path is covered as said, else 0, and its third is 0". "Refusals: 1 to 3 of
/// the narrow list, then of the wide one, with third number 1 or 2 for the list."
pub fn covers(narrow: &[u8], wide: &[u8]) -> Three {
    let narrow = match paths(narrow) {
        Ok(paths) => paths,
        Err(refusal) => return of_list(refusal, 1),
    };
    let wide = match paths(wide) {
        Ok(paths) => paths,
        Err(refusal) => return of_list(refusal, 2),
    };
    let all = narrow.iter().all(|a| wide.iter().any(|b| stands_for(b, a)));
    Three { number: 0, second: u64::from(all), third: 0 }
}

fn of_list(refusal: Numbers, list: u64) -> Three {
    Three { number: refusal.number, second: refusal.second, third: list }
}

/// The mark is asked for on its own (reading R-40).
fn stands_for(b: &Path, a: &Path) -> bool {
    covers_path(b, a) && (b.is_marked || !a.is_marked)
}

/// "A path with a self or descendant-or-self step covers only the same path, and only the same path covers it. For all other
/// pairs b covers a exactly when such a sending exists and b has no attribute test or the same one."
fn covers_path(b: &Path, a: &Path) -> bool {
    if may_stay(b) || may_stay(a) {
        return b.steps == a.steps && b.attribute == a.attribute;
    }
    can_be_sent(&b.steps, &a.steps) && (b.attribute.is_none() || b.attribute == a.attribute)
}

fn may_stay(path: &Path) -> bool {
    path.steps.iter().any(|step| matches!(step.axis, Axis::Itself | Axis::DescendantOrSelf))
}

/// "b's steps can be sent to a's steps in rising order, last to last": can these steps of b be sent to these of a so that the
/// last goes to the last? No steps at all stand before a's first.
fn can_be_sent(b: &[Step], a: &[Step]) -> bool {
    let ((step, earlier), (to, before)) = match (b.split_last(), a.split_last()) {
        (Some(of_b), Some(of_a)) => (of_b, of_a),
        _ => return b.is_empty() && a.is_empty(),
    };
    is_tested_as(step, to)
        && match step.axis {
            // "a child step of b must go to a child step of a, right after the one before (the first to a's first)"
            Axis::Child => to.axis == Axis::Child && can_be_sent(earlier, before),
            // "a descendant step to any later one"
            _ => (0..=before.len()).any(|count| can_be_sent(earlier, &before[..count])),
        }
}

/// "each test of b being `*` or the same name test"
fn is_tested_as(step: &Step, to: &Step) -> bool {
    step.test == Test::Any || step.test == to.test
}
