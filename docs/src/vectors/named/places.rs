// Items in their place: one root, what may stand outside it, end tags that match, and items that run out.

use super::{fault, kept, sound, Named};

pub fn all() -> Vec<Named> {
    let mut cases = outside();
    cases.extend(not_outside());
    cases.extend(matching());
    cases.extend(run_out());
    cases
}

fn outside() -> Vec<Named> {
    vec![
        kept("/g #\n", " <g/> ", "<g/>", 1),
        kept("/g #\n", "\t\r\n <g/>\n\r\t ", "<g/>", 1),
        kept("/g #\n", "<!--a--><?b c?><g/><?b c?><!--a-->", "<g/>", 1),
        kept("/g #\n", "\n<!--a-->\n<?b?>\n<g>t</g>\n<?b?>\n<!--a-->\n", "<g>t</g>", 1),
        kept("//*\n", "<?xml version='1.0'?>\n<!--a-->\n<g>\n<v/>\n</g>\n", "<g><v></v></g>", 2),
    ]
}

fn not_outside() -> Vec<Named> {
    vec![
        fault("x<g/>", 0),
        fault("<g/>x", 4),
        fault(" x<g/>", 0),
        fault("<g/>\nx", 4),
        fault("<g/>\u{a0}", 4),
        fault("\u{85}<g/>", 0),
        fault("<g/>\u{2028}", 4),
        fault("<!---->x<g/>", 7),
        fault("&amp;<g/>", 0),
        fault("<g/>&#32;", 4),
        fault(" &#10;<g/>", 1),
        fault("<![CDATA[]]><g/>", 0),
        fault("<g/><![CDATA[ ]]>", 4),
        fault("<g/><g/>", 4),
        fault("<g></g><g></g>", 7),
        fault("<g/>\n<!--a-->\n<v/>", 14),
        fault("<g/><v>", 4),
        fault(">", 0),
        fault("Aar", 0),
        fault("]<g/>", 0),
    ]
}

fn matching() -> Vec<Named> {
    vec![
        sound("<a><b><c></c></b><b></b></a>"),
        fault("</g>", 0),
        fault(" </g>", 1),
        fault("<g/></g>", 4),
        fault("<g></g></g>", 7),
        fault("<g></v>", 3),
        fault("<g><v></g>", 6),
        fault("<g><v></g></v>", 6),
        fault("<g><v></v></v>", 10),
        fault("<g><v/></v></g>", 7),
        fault("<a><b><c></b></c></a>", 9),
        fault("<g></G>", 3),
        fault("<g></gg>", 3),
        fault("<gg></g>", 4),
        fault("<g:v></g></v>", 5),
    ]
}

fn run_out() -> Vec<Named> {
    vec![
        fault("", 0),
        fault(" ", 1),
        fault("\n\n\n", 3),
        fault("<!---->", 7),
        fault("<?a?>\n", 6),
        fault("<g>", 3),
        fault("<g>Aar", 6),
        fault("<g>\n", 4),
        fault("<g><v/>", 7),
        fault("<g><v></v>", 10),
        fault("<g><v>", 6),
        fault("<g>&amp;", 8),
        fault("<g><!--a-->", 11),
        fault("<g><?a?>", 8),
        fault("<g><![CDATA[a]]>", 16),
        fault("<g k='1'>", 9),
        fault("<\u{e9}>", 4),
    ]
}
