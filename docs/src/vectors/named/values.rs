// Document 02, Q-4, what an attribute's value means: "with line ends first made LF, then each literal tab and LF made a space and each
// reference replaced by its character", with the reading R-16. A test has none of tab, LF, CR, `"`, `<` and `&`, so a value whose meaning
// has one passes no test; several tests that a wrong meaning would pass stand there with it.

use super::{kept, Named};

pub fn all() -> Vec<Named> {
    let mut cases = literal();
    cases.extend(blanks());
    cases.extend(references());
    cases.extend(referred());
    cases.extend(mixed());
    cases.extend(accents());
    cases.extend(around());
    cases
}

/// The root's attribute `k`, written so in the document, has this value. The tag is written as it came.
fn passes(written: &str, value: &str) -> Named {
    let tag = format!("<g k=\"{written}\"/>");
    kept(format!("/g[@k=\"{value}\"] #\n"), &tag, &tag, 1)
}

/// None of these is its value.
fn fails(written: &str, values: &[&str]) -> Named {
    let list: String = values.iter().map(|value| format!("/g[@k=\"{value}\"]\n")).collect();
    kept(list, format!("<g k=\"{written}\"/>"), "<g></g>", 0)
}

fn literal() -> Vec<Named> {
    vec![
        passes("", ""),
        passes("x", "x"),
        passes(" x ", " x "),
        passes("x  y", "x  y"),
        passes("&gt;", ">"),
        fails("", &[" ", "x"]),
        fails("x", &["", "X", "x ", " x", "xx", "'x'"]),
        fails(" x ", &["x", " x", "x "]),
        fails("x  y", &["x y", "xy"]),
        fails("xyz", &["x", "xy", "yz", "xyzz", "xYz", "xya", "ayz"]),
    ]
}

fn blanks() -> Vec<Named> {
    vec![
        passes("\t", " "),
        passes("\n", " "),
        passes("\r", " "),
        passes("\r\n", " "),
        passes("a\tb", "a b"),
        passes("a\nb", "a b"),
        passes("a\rb", "a b"),
        passes("a\r\nb", "a b"),
        passes("a\n\rb", "a  b"),
        passes("a\r\rb", "a  b"),
        passes("a\n\nb", "a  b"),
        passes("a\r\n\r\nb", "a  b"),
        passes("a\r\r\nb", "a  b"),
        passes("a\r\n\nb", "a  b"),
        passes("\r\na\r", " a "),
        passes(" \t\r\n\n\r ", "      "),
        fails("a\r\nb", &["a  b", "ab"]),
        fails("a\rb", &["ab", "a  b"]),
        fails("\ta\n", &["a", " a", "a "]),
        fails("\r\n", &["", "  "]),
    ]
}

fn references() -> Vec<Named> {
    vec![
        passes("&apos;", "'"),
        passes("&gt;&apos;&gt;", ">'>"),
        passes("&#65;", "A"),
        passes("&#x41;&#x0000041;&#0065;", "AAA"),
        passes("a&#98;c", "abc"),
        passes("&#x20;", " "),
        passes("&#32;&#x20;", "  "),
        passes("&#233;", "\u{e9}"),
        passes("e&#x301;", "e\u{301}"),
        passes("&#x20ac;", "\u{20ac}"),
        passes("&#x10000;&#x10ffff;", "\u{10000}\u{10ffff}"),
        fails("&amp;", &["", "amp", "amp;", "38"]),
        fails("&lt;v&gt;", &["v", "v>", "lt;v>", ">v>"]),
        fails("&quot;x&quot;", &["x", "'x'", "quot;xquot;"]),
        fails("&#65;", &["", "65", "#65;", "B", "e"]),
        fails("&amp;#65;", &["A", "#65;"]),
        fails("&#38;gt;", &[">", "gt;"]),
    ]
}

/// A character reference to tab, LF or CR stays what it is, and no test has these.
fn referred() -> Vec<Named> {
    vec![
        fails("&#9;", &[" ", "", "9"]),
        fails("&#10;", &[" ", ""]),
        fails("&#13;", &[" ", ""]),
        fails("&#xA;", &[" ", ""]),
        fails("&#13;&#10;", &[" ", "  ", ""]),
        fails("\r&#10;", &[" ", "  "]),
        fails("&#13;\n", &[" ", "  "]),
        fails("&#13;\r\n", &[" ", "  ", "   "]),
        fails("\n&#9;", &[" ", "  "]),
        fails("a&#9;b", &["a b", "ab"]),
    ]
}

fn mixed() -> Vec<Named> {
    vec![
        passes("&#32;\t\r\n&#x20;", "    "),
        passes("\r&#32;\n", "   "),
        passes("a&#65;\rb&gt;\nc", "aA b> c"),
        passes("\r&gt;\n", " > "),
        passes("&#x20;\r\n", "  "),
        passes("&#x31;\t2\n3\r4\r\n5 6", "1 2 3 4 5 6"),
        kept("/g[@k=\"'\"]\n/g[@k=\"\"]\n", "<g k='\"'/>", "<g></g>", 0),
        kept("/g[@k=\"a b\"]\n", "<g k='a&#10;b' l='a\nb'/>", "<g></g>", 0),
        kept("/g[@l=\"a b\"]\n", "<g k='a&#10;b' l='a\nb'/>", "<g k='a&#10;b' l='a\nb'></g>", 1),
    ]
}

/// Equal by bytes: composed and decomposed accents are two values, however each of them is written.
fn accents() -> Vec<Named> {
    vec![
        passes("\u{e9}", "\u{e9}"),
        passes("&#xE9;t&#233;", "\u{e9}t\u{e9}"),
        passes("e\u{301}", "e\u{301}"),
        passes("&#101;\u{301}", "e\u{301}"),
        passes("\u{10000}&#x1F600;\u{10ffff}", "\u{10000}\u{1f600}\u{10ffff}"),
        fails("\u{e9}", &["e\u{301}", "e", "\u{e8}", "\u{c9}", "\u{c3}\u{a9}"]),
        fails("e\u{301}", &["\u{e9}", "e", "\u{301}e"]),
        fails("&#233;", &["e\u{301}", "\u{c3}\u{a9}"]),
        fails("\u{10000}", &["\u{10001}", "\u{f0}\u{90}\u{80}\u{80}", ""]),
        fails("\u{ac}\u{2080}", &["\u{20ac}"]),
    ]
}

/// What stands around the value is none of it: quotes, blanks about `=`, other attributes, another line end.
fn around() -> Vec<Named> {
    vec![
        kept("/g[@k=\"x\"]\n", "<g k='x'/>", "<g k='x'></g>", 1),
        kept("/g[@k=\"x\"]\n", "<g\tk\r\n=\n\"x\" />", "<g\tk\r\n=\n\"x\" ></g>", 1),
        kept("/g[@k=\"'x'\"]\n", "<g k=\"'x'\"/>", "<g k=\"'x'\"></g>", 1),
        kept("/g[@k=\"'x'\"]\n", "<g k='&apos;x&#39;'/>", "<g k='&apos;x&#39;'></g>", 1),
        kept("/g[@k=\"x\"]\n/g[@k=\"'x'\"]\n", "<g k='\"x\"'/>", "<g></g>", 0),
        kept("/g[@k=\"a \"]\n", "<g k='a\r'\nl='b'/>", "<g k='a\r'\nl='b'></g>", 1),
        kept("/g[@k=\" a\"]\n", "<g l='b'\rk='\na'/>", "<g l='b'\rk='\na'></g>", 1),
        kept("/g[@k=\"l='y'\"]\n", "<g k=\"l='y'\" l='z'/>", "<g k=\"l='y'\" l='z'></g>", 1),
        kept("/g[@l=\"y\"]\n", "<g k=\"l='y'\" l='z'/>", "<g></g>", 0),
    ]
}
