// Batches by hand, with the readings: every refusal of the layout, the order of refusals, entries that are refused by each
// number, sums, rooms. A result is told as its entries, or byte by byte where the layout itself is in question.

use super::laid;
use crate::calls::Told;

pub fn all() -> Vec<Told> {
    let tables = [layout(), entries(), sums(), order(), narrow()];
    tables.into_iter().flatten().flat_map(Told::in_rooms).collect()
}

fn kept(list: &str, documents: &[&str], cuts: &[&str], selected: u64) -> Told {
    Told::kept(list, laid(documents), laid(cuts), selected, 0)
}

fn refused(list: &str, batch: &[u8], offset: usize) -> Told {
    Told::refused(list, batch, 11, offset)
}

/// The bytes of the layout, sound and at fault.
fn layout() -> Vec<Told> {
    let mut cases = vec![
        Told::kept("", b"\x01", b"\x01", 0, 0),
        Told::kept("//v\n", b"\x01", b"\x01", 0, 0),
        Told::kept("", b"\x01\0\0\0\x04<g/>", b"\x01\0\0\0\x07<g></g>", 0, 0),
        Told::kept("//v\n", b"\x01\0\0\0\x12<g><p><v/></p></g>", b"\x01\0\0\0\x15<g><p><v></v></p></g>", 1, 0),
        Told::kept("", b"\x01\0\0\0\x04<g/>\0\0\0\x04<h/>", b"\x01\0\0\0\x07<g></g>\0\0\0\x07<h></h>", 0, 0),
        Told::kept("", b"\x01\0\0\0\0", b"\x01\0\0\0\0", 0, 0),
        Told::kept("", b"\x01\0\0\0\x00\0\0\0\x04<g/>\0\0\0\0", b"\x01\0\0\0\0\0\0\0\x07<g></g>\0\0\0\0", 0, 0),
        // What stands in a document is no layout.
        Told::kept("", b"\x01\0\0\0\x05\x01\0\0\0\x04", b"\x01\0\0\0\0", 0, 0),
        Told::kept("", b"\x01\0\0\0\x01\x01\0\0\0\x04<g/>", b"\x01\0\0\0\0\0\0\0\x07<g></g>", 0, 0),
        // No bytes at all, and other versions.
        refused("", b"", 0),
        refused("", b"\0", 0),
        refused("", b"\x02", 0),
        refused("", b"1", 0),
        refused("", b"\x81", 0),
        refused("", b"\xff", 0),
        refused("", b"\0\0\0\0\x04<g/>", 0),
        refused("", b"\x02\0\0\0\x04<g/>", 0),
        refused("", b"\xef\xbb\xbf\x01\0\0\0\x04<g/>", 0),
        refused("", b"<g/>", 0),
        // Another version comes before a length.
        refused("", b"\x02\0", 0),
        refused("", b"\x00\0\0\0\x01", 0),
        // A length that is cut short: 1 to 3 bytes.
        refused("", b"\x01\0", 1),
        refused("", b"\x01\0\0", 1),
        refused("", b"\x01\0\0\0", 1),
        refused("", b"\x01\xff", 1),
        refused("", b"\x01\0\0\0\x04<g/>\0", 9),
        refused("", b"\x01\0\0\0\x04<g/>\0\0", 9),
        refused("", b"\x01\0\0\0\x04<g/>\0\0\0", 9),
        refused("", b"\x01\0\0\0\0\0", 5),
        // A length that runs past the end, by one and by more.
        refused("", b"\x01\0\0\0\x01", 1),
        refused("", b"\x01\0\0\0\x05<g/>", 1),
        refused("", b"\x01\0\0\0\x03<g/>", 8),
        refused("", b"\x01\0\0\0\x04<g/>\0\0\0\x01", 9),
        refused("", b"\x01\0\0\0\x04<g/>\0\0\0\x05<g/>", 9),
        refused("", b"\x01\0\0\0\x04<g/>\0\0\0\0\0\0\0\x05<g/>", 13),
        // The first of two.
        refused("", b"\x01\0\0\0\x04<g/>\0\0\0\x09<g/>\0\0\0", 9),
    ];
    // All four bytes of the length count, the first most.
    for length in [b"\x01\0\0\x04", b"\0\x01\0\x04", b"\0\0\x01\x04", b"\xff\xff\xff\xff", b"\x80\0\0\x04", b"\xff\xff\xff\xfb"] {
        cases.push(refused("", &[b"\x01", &length[..], b"<g/>"].concat(), 1));
        cases.push(refused("", &[b"\x01\0\0\0\x04<g/>", &length[..], b"<g/>"].concat(), 9));
    }
    cases
}

/// Documents refused by 5, 6, 7, 8 and 10 have length 0, wherever they stand.
fn entries() -> Vec<Told> {
    let deep = format!("{}{}", "<a>".repeat(65), "</a>".repeat(65));
    let long = format!("<{}/>", "n".repeat(256));
    let many: String = (0..33).map(|i| format!(" k{i}=''")).collect();
    let many = format!("<g{many}/>");
    let bad = [
        "", " ", "x", "\u{1}", "\u{ffff}", "<g>\0</g>", "<!DOCTYPE g>", "<!DOCTYPE g><g/>", "<g", "<g>", "</g>", "<g/><g/>", "<g></h>",
        "<g k='1' k='2'/>", "<g>&x;</g>", "<g>]]></g>", "\u{feff}", "<!--c-->", &deep, &long, &many,
        "<?xml version='1.0' encoding='ISO-8859-1'?><g/>", "\u{feff}<?xml version='1.0' encoding='UTF8'?><g/>", "<?xml?><g/>",
    ];
    let mut cases = Vec::new();
    for bad in bad {
        cases.push(kept("//v\n", &[bad], &[""], 0));
        cases.push(kept("//v\n", &["<v/>", bad, "<g><v>x</v></g>"], &["<v></v>", "", "<g><v></v></g>"], 2));
        cases.push(kept("//* #\n", &[bad, bad, "<v/>"], &["", "", "<v/>"], 1));
    }
    // Bytes that are no text, told byte by byte: a lone continuation byte, a sequence cut off by the document's end.
    cases.push(Told::kept("//v\n", b"\x01\0\0\0\x01\x80\0\0\0\x04<v/>", b"\x01\0\0\0\0\0\0\0\x07<v></v>", 1, 0));
    cases.push(Told::kept("//v\n", b"\x01\0\0\0\x05<v/>\xc3\0\0\0\x04<v/>", b"\x01\0\0\0\0\0\0\0\x07<v></v>", 1, 0));
    // The documents beside the bad ones: what a document leaves open is closed for the next one.
    cases.push(kept("/g/v\n", &["<g>", "<v/>", "</g>"], &["", "<v></v>", ""], 0));
    cases.push(kept("//v\n", &["<g><v/></g>", "\u{feff}<v/>\n", "<!--c--><g/>"], &["<g><v></v></g>", "<v></v>", "<g></g>"], 2));
    cases.push(kept("//v #\n", &["<g><v k='1'>x</v></g>", "<v />"], &["<g><v k='1'>x</v></g>", "<v />"], 2));
    // The encoding is looked for in each document, and UTF-8 is taken in each.
    let latin = "<?xml version='1.0' encoding='latin1'?><g/>";
    let utf_8 = "<?xml version='1.0' encoding='utf-8'?><g/>";
    cases.push(kept("", &[latin, utf_8, latin, utf_8], &["", "<g></g>", "", "<g></g>"], 0));
    // A length of more than one byte, in and out.
    let text = format!("<g>{}</g>", "x".repeat(993));
    assert_eq!(text.len(), 1_000);
    let batch = [b"\x01\0\0\x03\xe8", text.as_bytes()].concat();
    cases.push(Told::kept("/g #\n", &batch, &batch, 1, 0));
    cases.push(Told::kept("/g\n", &batch, b"\x01\0\0\0\x07<g></g>", 1, 0));
    cases
}

/// "Under 0 the third number is the sum over the entries."
fn sums() -> Vec<Told> {
    let document = "<g><v/><v><v/></v></g>";
    let cut = "<g><v></v><v><v></v></v></g>";
    let mut cases = vec![
        kept("//v\n", &[document; 3], &[cut; 3], 9),
        kept("//v\n//v #\n//v\n", &["<v/>"; 5], &["<v/>"; 5], 5),
        kept("", &[document; 3], &["<g></g>"; 3], 0),
        // Those inside a kept entry too, in each.
        kept("//v #\n", &[document, "<v><v><v/></v></v>"], &["<g><v/><v><v/></v></g>", "<v><v><v/></v></v>"], 6),
        // Each document has its own attributes and levels.
        kept("//v[@k=\"1\"]\n", &["<v k='1'/>", "<v/>", "<v k='1'/>"], &["<v k='1'></v>", "<v></v>", "<v k='1'></v>"], 2),
        kept("/descendant-or-self::v/self::v\n", &["<v/>", "<g><v/></g>"], &["<v></v>", "<g><v></v></g>"], 2),
    ];
    // Hundreds of small documents: more than a byte of them, and of elements.
    cases.push(kept("//v\n", &["<v/>"; 300], &["<v></v>"; 300], 300));
    cases.push(kept("//v\n", &[""; 257], &[""; 257], 0));
    cases
}

/// 1; 2 and 3 by line; 11; 9. Whatever is wrong with a document is no refusal.
fn order() -> Vec<Told> {
    let (long, steps, lines) = ("x".repeat(8_193), "/v".repeat(17) + "\n", "/v\n".repeat(33));
    let mut cases = Vec::new();
    for batch in [&b""[..], b"\x02", b"\x01\0", b"\x01\0\0\0\x04<g/>", b"\x01\0\0\0\x01x"] {
        cases.push(Told::refused(&long, batch, 1, 0));
        cases.push(Told::refused("x\n", batch, 2, 1));
        cases.push(Told::refused("/v\n/v", batch, 2, 2));
        cases.push(Told::refused(&steps, batch, 3, 1));
        cases.push(Told::refused(&lines, batch, 3, 33));
    }
    cases.push(refused("//v\n", b"\x01\0\0\0\x01x\0", 6));
    cases.push(refused("//v\n", b"\x01\0\0\0\x0c<!DOCTYPE g>\0\0\0\x01", 17));
    cases.push(refused("//v\n", b"\x01\0\0\0\x04<v/>\0\0\0\x02\xff\xff\0\0", 15));
    cases
}

/// the narrow result of the wide result is the narrow result, and an entry of length 0 stays one.
fn narrow() -> Vec<Told> {
    let batch = ["<g><v/>x<n/></g>", "x", "<n/>", ""];
    let wide = ["<g><v></v><n></n></g>", "", "<n></n>", ""];
    let narrow = ["<g><n></n></g>", "", "<n></n>", ""];
    vec![
        kept("//v\n//n\n", &batch, &wide, 3),
        kept("//n\n", &batch, &narrow, 2),
        kept("//n\n", &wide, &narrow, 2),
        kept("//n #\n", &["<g k='1'><n><a/></n></g>"], &["<g><n><a/></n></g>"], 1),
        kept("//n\n", &["<g><n><a/></n></g>"], &["<g><n></n></g>"], 1),
    ]
}
