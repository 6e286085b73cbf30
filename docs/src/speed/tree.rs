// A cut in ordinary Rust, from the words of document 01, "What is written": the elements that expat tells, as a tree, with the verdicts of
// plain/select.rs. It shares nothing with the Rattle source, and is made to be compared with, not timed.
use crate::expat::{events, Event};
use crate::plain::select::{verdict, Kind, Path, Step, Verdict};
use crate::steps;
use std::collections::HashMap;
use std::ops::Range;

struct Element {
    name: Vec<u8>,
    tag: Range<usize>,
    end: usize,
    verdict: Verdict,
    inner: Vec<Element>,
}

fn path(path: &steps::Path) -> Path {
    let kind = |step: &steps::Step| if step.descends { Kind::Descendant } else { Kind::Child };
    let step = |step: &steps::Step| Step { kind: kind(step), name: step.test.map(<[u8]>::to_vec) };
    Path { steps: path.steps.iter().map(step).collect(), marked: path.marked }
}

/// The root of a well-formed document, and how many elements a list selects. What is said of names from the root on is asked once.
fn tree(list: &[Path], doc: &[u8]) -> (Element, usize) {
    let mut said: HashMap<Vec<Vec<u8>>, Verdict> = HashMap::new();
    let (mut names, mut open, mut root, mut selected) = (Vec::new(), Vec::<Element>::new(), None, 0);
    let sound = events(doc, &mut |event| match event {
        Event::Start(name, tag) => {
            names.push(name.clone());
            let verdict = *said.entry(names.clone()).or_insert_with(|| verdict(list, &names));
            selected += !matches!(verdict, Verdict::Unselected) as usize;
            open.push(Element { name, tag, end: 0, verdict, inner: Vec::new() });
        }
        Event::End(end) => {
            names.pop();
            let element = Element { end, ..open.pop().unwrap() };
            match open.last_mut() {
                Some(parent) => parent.inner.push(element),
                None => root = Some(element),
            }
        }
    });
    assert!(sound);
    (root.unwrap(), selected)
}

/// The bytes that are written of an element.
fn written(doc: &[u8], element: &Element, is_root: bool) -> Vec<u8> {
    let inner: Vec<u8> = element.inner.iter().flat_map(|inner| written(doc, inner, false)).collect();
    let tag = &doc[element.tag.clone()];
    let head = match element.verdict {
        Verdict::Marked => return doc[element.tag.start..element.end].to_vec(),
        Verdict::Selected => tag.strip_suffix(b"/>").or(tag.strip_suffix(b">")).unwrap().to_vec(),
        Verdict::Unselected if is_root || !inner.is_empty() => [b"<", &element.name[..]].concat(),
        Verdict::Unselected => return Vec::new(),
    };
    [&head, &b">"[..], &inner, b"</", &element.name, b">"].concat()
}

/// The cut of a well-formed document by a sound list, and the number of elements selected.
pub fn cut(list: &str, doc: &[u8]) -> (Vec<u8>, usize) {
    let paths: Vec<Path> = steps::paths(list).iter().map(path).collect();
    let (root, selected) = tree(&paths, doc);
    (written(doc, &root, true), selected)
}
