// The order of the numbers: several faults in one call, and which of them is the answer. Within a line of the list the order is in lists.rs
// and limits.rs; among the sizes in sizes.rs.

use super::{kept, refused, Named};

pub fn all() -> Vec<Named> {
    let mut cases = list_first();
    cases.extend(characters_first());
    cases.extend(first_item());
    cases.extend(within_item());
    cases.extend(room_last());
    cases
}

fn list_first() -> Vec<Named> {
    let (long, steps, lines) = ("x".repeat(8_193), "/v".repeat(17), "/v\n".repeat(33));
    vec![
        refused(&long, b"\xff<!DOCTYPE", 1, 0).room(0),
        refused(format!("\n{long}"), "", 1, 0),
        refused("x\n", b"\xff", 2, 1).room(0),
        refused("x\n", "", 2, 1),
        refused("x\n", "<!DOCTYPE g>", 2, 1),
        refused("/g\n\n", "<g>", 2, 2),
        refused(format!("{steps}\n"), b"\xff", 3, 1),
        refused(format!("{steps}\n"), "<g", 3, 1).room(0),
        refused(&lines, "<!DOCTYPE", 3, 33),
        refused(format!("x\n{steps}\n"), "<g/>", 2, 1),
        refused(format!("{steps}\nx\n"), "<g/>", 3, 1),
        refused(format!("/v\n{steps}\nx\n{lines}"), "<g/>", 3, 2),
        refused(format!("{lines}x\n"), "<g/>", 3, 33),
        refused(format!("x\n{lines}"), "<g/>", 2, 1),
    ]
}

fn characters_first() -> Vec<Named> {
    vec![
        refused("", b"<!DOCTYPE g><g/>\xff", 5, 16),
        refused("", b"<g></v>\xff", 5, 7),
        refused("", b"x<g/>\0", 5, 5),
        refused("", b"<g><v>\x80", 5, 6),
        refused("", b"<g k='1' k='1'/>\xc3", 5, 16),
        refused("", b"<g>&#0;</g>\x0c", 5, 11),
        refused("", [&b"<a>".repeat(65)[..], b"\xff"].concat(), 5, 195),
        refused("//g\n", b"<g/>\xff", 5, 4).room(0),
        refused("", b"<g>\xff\xfe\0", 5, 3),
    ]
}

/// Of the items at fault the first decides, whatever its number.
fn first_item() -> Vec<Named> {
    let (long, deep) = ("n".repeat(256), "<a>".repeat(65));
    vec![
        refused("", "<!DOCTYPE g></v>", 6, 0),
        refused("", "</v><!DOCTYPE g>", 7, 0),
        refused("", "<g><v></g><!DOCTYPE g>", 7, 6),
        refused("", format!("<{long}/><!DOCTYPE g>"), 8, 0),
        refused("", format!("<!DOCTYPE g><{long}/>"), 6, 0),
        refused("", format!("x<{long}/>"), 7, 0),
        refused("", format!("<g><{long}/></v>"), 8, 3),
        refused("", format!("<g></v><{long}/>"), 7, 3),
        refused("", format!("{deep}<"), 8, 192),
        refused("", format!("{deep}<!DOCTYPE"), 8, 192),
        refused("", "<g>]]><!DOCTYPE g>", 7, 3),
        refused("", "<g>&x;]]></g>", 7, 3),
        refused("", "<g/>x<!DOCTYPE g>", 7, 4),
        refused("", "<g><!DOCTYPE g>", 6, 3),
        refused("", "<g><", 7, 3),
        refused("", "<g><v k='' k=''></g>", 7, 3),
    ]
}

/// Doctype, production, sizes, then place, match and repeated attributes.
fn within_item() -> Vec<Named> {
    let long = "n".repeat(256);
    let many: String = (0..33).map(|i| format!(" k{i}=''")).collect();
    vec![
        refused("", "<g/><!DOCTYPE g>", 6, 4),
        refused("", "<g/><g", 7, 4),
        refused("", format!("<g/><{long}"), 7, 4),
        refused("", format!("<g/><{long}/>"), 8, 4),
        refused("", format!("<g/></{long}>"), 8, 4),
        refused("", format!("<g/></{long} k>"), 7, 4),
        refused("", format!("<g></{long}>"), 8, 3),
        refused("", format!("<g{many} k0=''/>"), 8, 0),
        refused("", format!("<g{many} k0=''"), 7, 0),
        refused("", format!("<g/><g{many}/>"), 8, 4),
        refused("", "<g/><g k='' k=''/>", 7, 4),
        refused("", "<g/>&#0;", 7, 4),
        refused("", "<g/>]]>", 7, 4),
    ]
}

fn room_last() -> Vec<Named> {
    vec![
        refused("//v\n", "<g><v></g>", 7, 6).room(0),
        refused("//v\n", "<!DOCTYPE g>", 6, 0).room(0),
        refused("//v\n", "", 7, 0).room(0),
        refused("v\n", "<g/>", 2, 1).room(0),
        refused("//v\n", "<g><v/></g>", 9, 14).room(13),
        kept("//v\n", "<g><v/></g>", "<g><v></v></g>", 1).room(14),
        refused("/g #\n", "<g><v/></g>x", 7, 11).room(2),
        refused("/g #\n", "<g><v/></g>\n", 9, 11).room(2),
    ]
}
