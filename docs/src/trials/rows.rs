// Rows for a spreadsheet, Q-8 of document 02: the library beside the second program. Also, that a table is refused where a cut is, and by
// the same numbers, and has as many elements selected; and that marks change nothing. At the end of the packs, a table of over 2^32 bytes.
use std::{fs, io};
use vectors::asked::Four;
use vectors::calls::case;
use vectors::made::Case;
use vectors::rows::ROWS;

fn library(list: &[u8], doc: &[u8], out: &mut [u8]) -> Four {
    let answer = choughbell::rows(list, doc, out);
    [answer.number, answer.second, answer.third, 0]
}

pub fn packs() {
    ROWS.on_all(library);
    let (elements, name) = (300_000, "n".repeat(255));
    let doc = [format!("<{name}>").repeat(63), "<a/>".repeat(elements), format!("</{name}>").repeat(63)].concat();
    let ([number, second, ..], _) = ROWS.both(library, &case("//a\n", doc, 100));
    // The header, and in each record 63 names with a slash behind each, `a`, a comma and the line end.
    assert_eq!((number, second), (9, 11 + elements as u64 * (63 * 256 + 4)));
    println!("rows of {elements} elements: {number} {second}");
}

pub fn fuzz(cases: usize, seed: u64) {
    ROWS.fuzz(library, cases, seed, |case, answer, out, _| {
        is_as_a_cut(case, answer);
        let unmarked = String::from_utf8_lossy(&case.list).replace(" #\n", "\n");
        if answer[0] == 0 {
            let again = ROWS.both(library, &Case { list: unmarked.into_bytes(), ..case.clone() });
            assert!(again.0 == answer && again.1 == out, "the mark changes a table");
        }
    });
}

/// Writes the sound documents of the cases, and their tables of all elements by the library, for others to read.
pub fn tables(folder: &str) -> io::Result<()> {
    fs::create_dir_all(folder)?;
    for (n, (doc, _)) in vectors::rows::tables().iter().enumerate() {
        let table = choughbell::rows_of(b"//*\n", doc).expect("a sound document").bytes;
        fs::write(format!("{folder}/{n}.xml"), doc)?;
        fs::write(format!("{folder}/{n}.csv"), table)?;
    }
    Ok(())
}

/// "Refusals: as for a cut", but for the length under 9; "the elements selected" are those of the cut.
fn is_as_a_cut(case: &Case, answer: Four) {
    let cut = choughbell::cut(&case.list, &case.doc, &mut vec![0; 2 * case.doc.len()]);
    match answer[0] {
        0 => assert_eq!((cut.number, cut.third), (0, answer[2])),
        9 => assert_eq!(cut.number, 0),
        _ => assert_eq!([cut.number, cut.second, cut.third], answer[..3]),
    }
}
