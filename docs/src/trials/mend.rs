// Mending, Q-11 of document 02: the library beside the second program. Also, of each answer 0: what is kept is the document's front, a
// sound document comes back as it is with 0 added, the result is accepted, and mended again it stays as it is. At the end of the packs,
// documents at the most bytes, one of whose results is longer than a document may be.
use vectors::asked::Four;
use vectors::calls::case;
use vectors::mend::{most, MEND};

const MOST: usize = 16_777_216;

fn library(_: &[u8], doc: &[u8], out: &mut [u8]) -> Four {
    let answer = choughbell::mend(doc, out);
    [answer.number, answer.second, answer.third, answer.fourth]
}

pub fn packs() {
    MEND.on_all(library);
    for (length, end) in [(MOST, "<n>"), (MOST, "</g>"), (MOST, "<n>\0"), (MOST + 1, "</g>"), (MOST + 1, "<n>")] {
        let mut doc = b"<g>".to_vec();
        doc.resize(length - end.len(), b'.');
        doc.extend_from_slice(end.as_bytes());
        let (answer, _) = MEND.both(library, &case("", doc, length + 8));
        println!("mending {length} bytes that end in {end:?}: {answer:?}");
    }
}

pub fn fuzz(cases: usize, seed: u64) {
    MEND.fuzz(library, cases, seed, |case, answer, out, _| {
        let is_sound = second::judge(&case.doc).is_none();
        if answer[0] == 0 {
            let result = &out[..answer[1] as usize];
            let (kept, added) = (answer[2] as usize, answer[3]);
            assert!(result[..kept] == case.doc[..kept], "what is kept is not the front of the document");
            assert!(!is_sound || result == case.doc && added == 0, "a sound document is changed");
            is_whole(result);
        }
        assert!(!is_sound || [0, 9].contains(&answer[0]), "a sound document is refused");
    });
}

fn is_whole(result: &[u8]) {
    assert_eq!(choughbell::cut(b"", result, &mut []).number, 9, "the result is not accepted");
    let (again, out) = MEND.both(library, &case("", result, most(result)));
    let length = result.len() as u64;
    assert!(again == [0, length, length, 0] && out.starts_with(result), "mended again it is another");
}
