//! Document 02, Q-1: "10, with the declaration's offset, stands between 4 and 5 and is given exactly when the first item
//! has the right shape of a declaration and names another encoding." With readings R-1 to R-3.

use super::{fault, kept, refused, refused_in, sound};
use crate::declaration::names_other_encoding;

/// What stands in a declaration that names this encoding, in the four ways that quotes and standalone allow.
fn declarations(name: &str) -> [String; 4] {
    [
        format!("<?xml version='1.0' encoding='{name}'?>"),
        format!("<?xml version=\"1.0\" encoding=\"{name}\"?>"),
        format!("<?xml version='1.0'\n\tencoding = \"{name}\" standalone='yes'?>"),
        format!("<?xml version='1.1' encoding\r=\n'{name}' standalone = \"no\" ?>"),
    ]
}

#[test]
fn a_declaration_without_an_encoding() {
    for declaration in ["<?xml version='1.0'?>", "<?xml version=\"1.1\" ?>", "<?xml version='1.0' standalone='no'?>"] {
        sound(format!("{declaration}<g/>"));
        sound(format!("\u{FEFF}{declaration}\n<g/>"));
    }
    sound("<g/>");
}

#[test]
fn utf_8_in_any_case() {
    for name in ["UTF-8", "utf-8", "Utf-8", "uTF-8", "utF-8"] {
        for declaration in declarations(name) {
            assert_eq!(names_other_encoding(declaration.as_bytes()), None);
            kept("//v\n", format!("{declaration}<g><v k='\u{E9}'/></g>"), "<g><v k='\u{E9}'></v></g>", 1);
            kept("//v\n", format!("\u{FEFF}{declaration}<g><v/></g>"), "<g><v></v></g>", 1);
        }
    }
}

#[test]
fn other_encodings() {
    for name in [
        "ISO-8859-1",
        "iso-8859-1",
        "UTF8",
        "US-ASCII",
        "UTF-16",
        "UTF",
        "UTF-",
        "UTF-8x",
        "UTF-80",
        "UTF-8-",
        "UTF_8",
        "UTF.8",
        "xUTF-8",
        "x",
    ] {
        for declaration in declarations(name) {
            assert_eq!(names_other_encoding(declaration.as_bytes()), Some(0));
            fault(format!("{declaration}<g><v>\u{E9}</v></g>"), 10, 0);
            fault(format!("\u{FEFF}{declaration}<g/>"), 10, 3);
        }
    }
    fault(format!("<?xml version='1.0' encoding='{}'?><g/>", "UTF-8".repeat(1_000)), 10, 0);
}

#[test]
fn the_office_file() {
    // "a file declared ISO-8859-1 whose accented bytes happened to read as UTF-8": C3 A9 is one letter or two.
    let rest = b"<g><village>Cr\xC3\xA9t</village></g>";
    fault([b"<?xml version=\"1.0\" encoding=\"ISO-8859-1\"?>\n", &rest[..]].concat(), 10, 0);
    let good = [b"<?xml version=\"1.0\" encoding=\"UTF-8\"?>\n", &rest[..]].concat();
    kept("//village #\n", good, rest, 1);
}

#[test]
fn reading_r_1_the_whole_production() {
    for inside in [
        " encoding='ISO-8859-1'",
        " encoding='ISO-8859-1' version='1.0'",
        " version='1' encoding='ISO-8859-1'",
        " version='1.' encoding='ISO-8859-1'",
        " version='2.0' encoding='ISO-8859-1'",
        " version='1.0'encoding='ISO-8859-1'",
        " version='1.0' encoding=''",
        " version='1.0' encoding='8859-1'",
        " version='1.0' encoding='ISO 8859-1'",
        " version='1.0' encoding='ISO-8859-1\"",
        " version='1.0' encoding=ISO-8859-1",
        " version='1.0' Encoding='ISO-8859-1'",
        " version='1.0' encoding='ISO-8859-1'standalone='no'",
        " version='1.0' encoding='ISO-8859-1' standalone='maybe'",
        " version='1.0' standalone='no' encoding='ISO-8859-1'",
        " version='1.0' encoding='ISO-8859-1' encoding='UTF-8'",
        " version='1.0' encoding='ISO-8859-1' x",
        " version='1.0' encoding='ISO-8859-1' ?",
        " version='1.0' encoding='ISO-8859-1'>",
    ] {
        let declaration = format!("<?xml{inside}?>");
        assert_eq!(names_other_encoding(declaration.as_bytes()), None);
        fault(format!("{declaration}<g/>"), 7, 0);
        fault([declaration.as_bytes(), b"<g>\xE9</g>"].concat(), 5, declaration.len() + 3);
    }
    let whole = "<?xml version='1.0' encoding='ISO-8859-1'?>";
    for end in 0..whole.len() {
        fault(&whole[..end], 7, 0);
        fault([&whole.as_bytes()[..end], b"\xFF"].concat(), 5, end);
    }
    fault(whole, 10, 0);
}

#[test]
fn reading_r_1_as_first_item_only() {
    let declaration = "<?xml version='1.0' encoding='ISO-8859-1'?>";
    fault(format!("\n{declaration}<g/>"), 7, 1);
    fault(format!("<!---->{declaration}<g/>"), 7, 7);
    fault(format!("<g>{declaration}</g>"), 7, 3);
    fault(format!("<g/>{declaration}"), 7, 4);
    fault(format!("\u{FEFF}\u{FEFF}{declaration}<g/>"), 7, 3);
    fault(format!("<?xml version='1.0' encoding='UTF-8'?>{declaration}<g/>"), 7, 38);
    fault(format!("{declaration}{declaration}<g/>"), 10, 0);
    sound(format!("<!--{declaration}--><g/>"));
    sound("<?xml-stylesheet version='1.0' encoding='ISO-8859-1'?><g/>");
    fault("<?XML version='1.0' encoding='ISO-8859-1'?><g/>", 7, 0);
}

#[test]
fn reading_r_2_what_stands_behind_does_not_matter() {
    let declaration = &b"<?xml version='1.0' encoding='ISO-8859-1'?>"[..];
    let behind: [&[u8]; 9] =
        [b"", b"\n", b"<g>\xE9</g>", b"\xFF", b"\0", b"<!DOCTYPE g><g/>", b"<g><v></g>", b"</g>", b"<g k='' k=''/>\xC3"];
    for rest in behind {
        fault([declaration, rest].concat(), 10, 0);
        fault([b"\xEF\xBB\xBF", declaration, rest].concat(), 10, 3);
    }
    fault([declaration, b"<", "a".repeat(256).as_bytes(), b"/>"].concat(), 10, 0);
    // Behind a sound one all of it matters.
    let declaration = b"<?xml version='1.0' encoding='UTF-8'?>";
    fault([&declaration[..], b"<g>\xE9</g>"].concat(), 5, 41);
    fault([&declaration[..], b"<!DOCTYPE g><g/>"].concat(), 6, 38);
    fault(declaration, 7, 38);
}

#[test]
fn reading_r_2_a_bad_byte_inside_breaks_the_shape() {
    let declaration = &b"<?xml version='1.0' encoding='ISO-8859-1' standalone='no' ?>"[..];
    for at in 0..declaration.len() {
        for bad in [0xE9, 0xFF, 0x80, 0x00, 0x0B] {
            let mut doc = [declaration, b"<g/>"].concat();
            doc[at] = bad;
            fault(&doc, 5, at);
            doc.splice(..0, *b"\xEF\xBB\xBF");
            fault(&doc, 5, at + 3);
        }
    }
    // A character that XML allows, but not there.
    fault("<?xml version='1.0' encoding='ISO-8859-1\u{E9}'?><g/>", 7, 0);
    fault("<?xml\u{A0}version='1.0' encoding='ISO-8859-1'?><g/>", 7, 0);
}

#[test]
fn reading_r_2_the_order() {
    let declaration = b"<?xml version='1.0' encoding='ISO-8859-1'?>";
    let mut long = declaration.to_vec();
    long.resize(16_777_216, b' ');
    fault(&long, 10, 0);
    long.push(b' ');
    fault(&long, 4, 0);
    refused("x".repeat(8_193), declaration, 1, 0);
    refused("/v\nx\n", declaration, 2, 2);
    refused("/a".repeat(17) + "\n", declaration, 3, 1);
    refused_in(b"//v\n", &[&declaration[..], b"<g/>"].concat(), 0, 10, 0);
}

#[test]
fn the_three_bytes_are_whole_or_none() {
    let declaration = b"<?xml version='1.0' encoding='ISO-8859-1'?><g/>";
    fault([b"\xEF\xBB", &declaration[..]].concat(), 5, 0);
    fault([b"\xEF\xBB\xBE", &declaration[..]].concat(), 7, 0);
    fault([b"\xFE\xFF", &declaration[..]].concat(), 5, 0);
}
