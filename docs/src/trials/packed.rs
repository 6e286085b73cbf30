// Packed lists, Q-7 of document 02: the library beside the second program. Also both round trips, and that of a packed form with one bit
// turned, in every byte of a short form, the reader says 13 or gives another text.
use vectors::asked::Four;
use vectors::calls::case;
use vectors::packed::{MOST, PACK, UNPACK};

fn pack(_: &[u8], text: &[u8], out: &mut [u8]) -> Four {
    let answer = choughbell::pack(text, out);
    [answer.number, answer.second, answer.third, 0]
}

fn unpack(_: &[u8], packed: &[u8], out: &mut [u8]) -> Four {
    let answer = choughbell::unpack(packed, out);
    [answer.number, answer.second, answer.third, 0]
}

pub fn packs() {
    PACK.on_all(pack);
    UNPACK.on_all(unpack);
}

pub fn fuzz(cases: usize, seed: u64) {
    PACK.fuzz(pack, cases / 4, seed, |case, answer, out, random| {
        if answer[0] == 0 {
            let form = &out[..answer[1] as usize];
            assert_eq!(read(form), Some(case.doc.clone()), "text to packed to text");
            let places = if form.len() < 200 { 0..form.len() } else { form.len() - 1..form.len() };
            for at in places {
                let mut other = form.to_vec();
                other[at] ^= 1 << random.below(8);
                assert_ne!(read(&other), Some(case.doc.clone()), "two packed forms of one text");
            }
        }
    });
    UNPACK.fuzz(unpack, cases, seed, |asked, answer, out, _| {
        if answer[0] == 0 {
            let (again, bytes) = PACK.both(pack, &case("", &out[..answer[1] as usize], MOST));
            assert!(again[0] == 0 && bytes[..again[1] as usize] == asked.doc, "packed to text to packed");
        }
    });
}

/// The text, if this is a packed form.
fn read(form: &[u8]) -> Option<Vec<u8>> {
    let (answer, mut text) = UNPACK.both(unpack, &case("", form, MOST));
    text.truncate(answer[1] as usize);
    Some(text).filter(|_| answer[0] == 0)
}
