// Lists within wider ones, Q-12 of document 02: the library beside the second program. Also, where the wide list covers the narrow one,
// demand 3 on documents of the names that the lists have: the narrow cut of the wide cut is the narrow cut.
use crate::same::cut;
use vectors::asked::Four;
use vectors::covers::COVERS;
use vectors::made::Random;

fn library(narrow: &[u8], wide: &[u8], _: &mut [u8]) -> Four {
    let answer = choughbell::covers(narrow, wide);
    [answer.number, answer.second, answer.third, 0]
}

pub fn packs() {
    COVERS.on_all(library);
}

pub fn fuzz(cases: usize, seed: u64) {
    COVERS.fuzz(library, cases, seed, |case, answer, _, random| {
        if answer[..2] == [0, 1] {
            (0..3).for_each(|_| is_narrowed(&case.list, &case.doc, &document(random)));
        }
    });
}

fn is_narrowed(narrow: &[u8], wide: &[u8], doc: &[u8]) {
    let wide_cut = cut(wide, doc).expect("a sound list and document").0;
    let (once, twice) = (cut(narrow, doc), cut(narrow, &wide_cut));
    assert!(once.is_some() && once == twice, "demand 3 fails: {}, {}, {}", shown(narrow), shown(wide), shown(doc));
}

fn shown(bytes: &[u8]) -> String {
    bytes.escape_ascii().to_string()
}

/// Elements `a` and `b`, some with the attribute `k`, to six levels.
fn document(random: &mut Random) -> Vec<u8> {
    let mut doc = String::new();
    element(random, 1, &mut doc);
    doc.into_bytes()
}

fn element(random: &mut Random, level: usize, doc: &mut String) {
    let name = random.pick(&["a", "b"]);
    *doc += &format!("<{name}{}>", random.pick(&["", "", " k='1'"]));
    for _ in 0..random.below(4) {
        if level < 6 {
            element(random, level + 1, doc);
        }
        *doc += random.pick(&["", "x"]);
    }
    *doc += &format!("</{name}>");
}
