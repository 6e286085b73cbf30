//! Document 02, Q-4, what an attribute's value means: "with line ends first made LF, then each literal tab and LF made a space
//! and each reference replaced by its character", with reading R-16. Some of it no list can ask for, so it is asked directly.

use super::kept;
use crate::value::normal;

/// The value as it stands in the document has this meaning, and a list that can ask for it finds it.
fn means(raw: &str, meaning: &str) {
    assert_eq!(normal(raw), meaning, "{raw:?}");
    let doc = format!("<g k=\"{raw}\"/>");
    if meaning.chars().all(|c| c >= ' ' && !"\"<&".contains(c)) {
        kept(format!("/g[@k=\"{meaning}\"] #\n"), &doc, &doc, 1);
        kept(format!("/g[@k=\"{meaning}x\"] #\n"), &doc, "<g></g>", 0);
    }
}

#[test]
fn as_it_stands() {
    for raw in ["", "x", " ", "  x  ", "'", ">", "\u{E9}", "e\u{301}", "\u{10000}", "\u{7F}", "\u{85}", "\u{2028}", "#", "amp;"] {
        means(raw, raw);
    }
}

#[test]
fn literal_blanks() {
    means("\t", " ");
    means("\n", " ");
    means("\r", " ");
    means("\r\n", " ");
    means("a\tb", "a b");
    means("\n\n", "  ");
    means("\r\r", "  ");
    means("\n\r", "  ");
    means("\r\n\r\n", "  ");
    means("\r\r\n", "  ");
    means("\r\n\n", "  ");
    means("\t\r\n ", "   ");
    means(" a \r\n b ", " a   b ");
}

#[test]
fn references() {
    means("&lt;", "<");
    means("&amp;", "&");
    means("&gt;&apos;", ">'");
    means("&quot;", "\"");
    means("&#65;&#x41;&#x000041;", "AAA");
    means("&#233;", "\u{E9}");
    means("e&#x301;", "e\u{301}");
    means("&#x10FFFF;", "\u{10FFFF}");
    means("&#32;&#x20;", "  ");
    means("&amp;lt;", "&lt;");
    means("&amp;#65;", "&#65;");
    means("&#38;amp;", "&amp;");
}

#[test]
fn referred_blanks_stay() {
    means("&#9;", "\t");
    means("&#10;", "\n");
    means("&#13;", "\r");
    means("&#xD;&#xA;", "\r\n");
    means("\r&#10;", " \n");
    means("&#13;\n", "\r ");
    means("&#13;\r\n", "\r ");
    means("\r&#13;\n", " \r ");
    means("\n&#10;", " \n");
    means("\t&#9;", " \t");
    means("&#9;\t&#x20;", "\t  ");
}

#[test]
fn line_ends_are_looked_for_within_the_value_alone() {
    // The CR stands before the quote, the LF behind it.
    kept("/g[@k=\"a \"] #\n", "<g k='a\r'\nl='\nb'/>", "<g k='a\r'\nl='\nb'/>", 1);
    kept("/g[@l=\" b\"] #\n", "<g k='a\r'\nl='\nb'/>", "<g k='a\r'\nl='\nb'/>", 1);
}

#[test]
fn as_it_came_is_written() {
    kept("/g[@k=\"a b\"]\n", "<g k='a\r\nb'/>", "<g k='a\r\nb'></g>", 1);
    kept("/g[@k=\"A>\"]\n", "<g k='&#65;&gt;' />", "<g k='&#65;&gt;' ></g>", 1);
}
