//! Characters: answer 5 and its offset, both ends of every row of UTF-8 and of every range of Char, and bad sequences in
//! every kind of item. The classes of names are in `names`.

use super::{fault, sound};

fn in_root(bytes: &[u8]) -> Vec<u8> {
    [b"<g>", bytes, b"</g>"].concat()
}

#[test]
fn ill_formed_sequences() {
    for bytes in [b"\x80".as_ref(), b"\xBF", b"\xC0\x80", b"\xC1\xBF", b"\xC2", b"\xC2\xC2\x80", b"\xDF\x7F", b"\xFF"] {
        fault(in_root(bytes), 5, 3);
    }
    for bytes in [b"\xE0\x9F\xBF".as_ref(), b"\xE1\x80", b"\xE1\x80\xC0", b"\xED\xA0\x80", b"\xED\xBF\xBF", b"\xEF\x80"] {
        fault(in_root(bytes), 5, 3);
    }
    for bytes in [b"\xF0\x8F\xBF\xBF".as_ref(), b"\xF0\x90\x80", b"\xF4\x90\x80\x80", b"\xF5\x80\x80\x80", b"\xF1\x80\x80\xFF"] {
        fault(in_root(bytes), 5, 3);
    }
    // The sequence begins at its first byte, also where the document's end cuts it off.
    fault(b"<g>\xC3\xA9\xE2\x82", 5, 5);
}

#[test]
fn well_formed_sequences_at_the_ends_of_the_nine_rows() {
    for bytes in [b"\x7F".as_ref(), b"\xC2\x80", b"\xDF\xBF", b"\xE0\xA0\x80", b"\xE0\xBF\xBF", b"\xE1\x80\x80"] {
        sound(in_root(bytes));
    }
    for bytes in [b"\xEC\xBF\xBF".as_ref(), b"\xED\x80\x80", b"\xED\x9F\xBF", b"\xEE\x80\x80", b"\xEF\xBF\xBD"] {
        sound(in_root(bytes));
    }
    for bytes in [b"\xF0\x90\x80\x80".as_ref(), b"\xF0\xBF\xBF\xBF", b"\xF1\x80\x80\x80", b"\xF3\xBF\xBF\xBF", b"\xF4\x8F\xBF\xBF"] {
        sound(in_root(bytes));
    }
}

#[test]
fn controls_and_noncharacters() {
    for control in 0..0x20u8 {
        if control == 0x9 || control == 0xA || control == 0xD {
            sound(in_root(&[control]));
        } else {
            fault(in_root(&[control]), 5, 3);
        }
    }
    fault(in_root("\u{FFFE}".as_bytes()), 5, 3);
    fault(in_root("\u{FFFF}".as_bytes()), 5, 3);
    for c in ["\u{7F}", "\u{9F}", "\u{FDD0}", "\u{FEFF}", "\u{1FFFE}", "\u{10FFFF}"] {
        sound(in_root(c.as_bytes()));
    }
}

#[test]
fn the_first_bad_sequence_wherever_it_stands() {
    fault(b"<g>\x01\xFF</g>", 5, 3);
    fault(b"<g>\xFF\x01</g>", 5, 3);
    fault(b"<g>\xC3\xA9\x01</g>", 5, 5);
    fault(b"\xFF", 5, 0);
    fault(b"<g/>\x00", 5, 4);
    fault(b"<g k='\x01'/>", 5, 6);
    fault(b"<g><!--\xFF--></g>", 5, 7);
    fault(b"<g><?p \xFF?></g>", 5, 7);
    fault(b"<g><![CDATA[\x02]]></g>", 5, 12);
    fault(b"<?xml version='1.0'?>\xFE<g/>", 5, 21);
    fault(b"\xEF\xBB\xBF<g>\xFF</g>", 5, 6);
    fault(b"\xEF\xBB", 5, 0);
}
