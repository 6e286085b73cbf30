// Rows by hand, with the readings R-26 to R-29. Fields are told beside the content that they come from; tables without their header.

use crate::calls::Told;

pub fn all() -> Vec<Told> {
    let tables = [fields(), records(), paths(), refusals(), rooms()];
    tables.into_iter().flatten().flat_map(Told::in_rooms).collect()
}

fn table(list: &str, doc: impl AsRef<[u8]>, records: &str, selected: u64) -> Told {
    Told::kept(list, doc, format!("path,text\r\n{records}"), selected, 0)
}

/// Content, and the second field of the record of the element that it is in.
const FIELDS: &[(&str, &str)] = &[
    // Nothing, and nothing that is text directly in the element.
    ("", ""), ("<n/>", ""), ("<n>x</n>", ""), ("<!--x-->", ""), ("<?p x?>", ""), ("<![CDATA[]]>", ""), ("<n>,</n>", ""), ("<!--,\"-->", ""),
    // Text as it stands; no blanks are trimmed.
    ("Aar", "Aar"), (" ", " "), ("\t", "\t"), (" a ", " a "), ("'", "'"), (";", ";"), ("=1", "=1"), ("a/b", "a/b"), (">", ">"),
    ("]]", "]]"),
    ("\u{e9}", "\u{e9}"), ("e\u{301}", "e\u{301}"), ("\u{10000}", "\u{10000}"), ("\u{85}\u{2028}", "\u{85}\u{2028}"),
    ("\u{feff}", "\u{feff}"),
    // Joined across comments, instructions and children.
    ("a<!--x-->b", "ab"), ("a<?p x?>b", "ab"), ("a<n/>b", "ab"), ("a<n>x</n>b", "ab"), ("a<n>x<m>y</m>z</n>b", "ab"), (" <n/> ", "  "),
    ("<n/>a", "a"), ("<n>x</n><n>y</n>z", "z"), ("a<n/>b<n/>c", "abc"),
    // CDATA content as it stands, beside text too.
    ("<![CDATA[a]]>", "a"), ("<![CDATA[<n>x</n>]]>", "<n>x</n>"), ("<![CDATA[&amp;]]>", "&amp;"), ("<![CDATA[ ]]>", " "),
    ("a<![CDATA[b]]>c", "abc"), ("<![CDATA[a]]><![CDATA[b]]>", "ab"), ("<![CDATA[]]]]>", "]]"), ("<![CDATA[]]]]><![CDATA[>]]>", "]]>"),
    ("<![CDATA[<!--a-->]]>", "<!--a-->"), ("<![CDATA[,]]>", "\",\""), ("<![CDATA[\"]]>", "\"\"\"\""), ("<![CDATA[a\nb]]>", "\"a\nb\""),
    // References, by the character that they mean, once.
    ("&amp;", "&"), ("&lt;", "<"), ("&gt;", ">"), ("&apos;", "'"), ("&quot;", "\"\"\"\""), ("&#65;", "A"), ("&#x41;", "A"),
    ("&#00065;", "A"),
    ("&#xe9;", "\u{e9}"), ("&#x10FFFF;", "\u{10ffff}"), ("&#xD7ff;", "\u{d7ff}"), ("&amp;lt;", "&lt;"), ("&#38;lt;", "&lt;"),
    ("a&amp;b", "a&b"),
    ("&lt;n/&gt;", "<n/>"), ("&#32;", " "), ("&#9;", "\t"), ("&#44;", "\",\""), ("&#34;", "\"\"\"\""), ("&#x10000;", "\u{10000}"),
    ("&lt;![CDATA[&amp;]]&gt;", "<![CDATA[&]]>"), ("&#x7ff;&#x800;&#xfffd;", "\u{7ff}\u{800}\u{fffd}"),
    // Quoted exactly for a comma, a quote, CR or LF; quotes inside are doubled.
    (",", "\",\""), ("a,b", "\"a,b\""), (",,", "\",,\""), ("a,", "\"a,\""), (",a", "\",a\""), ("\"", "\"\"\"\""), ("\"\"", "\"\"\"\"\"\""),
    ("a\"b", "\"a\"\"b\""), ("\"a\"", "\"\"\"a\"\"\""), ("\",\"", "\"\"\",\"\"\""), ("a<n/>,", "\"a,\""), (",<n/>a", "\",a\""),
    ("aaaaaaaa,", "\"aaaaaaaa,\""), ("\u{e9},", "\"\u{e9},\""), ("&quot;a&quot;", "\"\"\"a\"\"\""), ("a<![CDATA[,]]>b", "\"a,b\""),
    ("\u{ff0c}\u{201d}", "\u{ff0c}\u{201d}"),
    // Literal line ends.
    ("\n", "\"\n\""), ("\r", "\"\n\""), ("\r\n", "\"\n\""), ("a\nb", "\"a\nb\""), ("a\rb", "\"a\nb\""), ("a\r\nb", "\"a\nb\""),
    ("\n\n", "\"\n\n\""), ("\r\r", "\"\n\n\""), ("\n\r", "\"\n\n\""), ("\r\r\n", "\"\n\n\""), ("\r\n\r\n", "\"\n\n\""),
    ("\r\n\n", "\"\n\n\""),
    ("\r\n\r", "\"\n\n\""), ("<![CDATA[\r\n]]>", "\"\n\""), ("<![CDATA[\r]]>", "\"\n\""), ("<![CDATA[\n\r]]>", "\"\n\n\""),
    // CR and LF that do not stand side by side in the document are two.
    ("\r<![CDATA[\n]]>", "\"\n\n\""), ("a\r<![CDATA[\nb]]>", "\"a\n\nb\""), ("<![CDATA[\r]]>\n", "\"\n\n\""), ("\r<!--c-->\n", "\"\n\n\""),
    ("\r<?p?>\n", "\"\n\n\""), ("\r<n/>\n", "\"\n\n\""), ("\r<n>\n</n>\n", "\"\n\n\""), ("<![CDATA[\r]]><![CDATA[\n]]>", "\"\n\n\""),
    ("\r<![CDATA[]]>\n", "\"\n\n\""), ("<![CDATA[a\r]]>\nb", "\"a\n\nb\""),
    // References to CR and LF stay what they are.
    ("&#10;", "\"\n\""), ("&#13;", "\"\r\""), ("&#xD;", "\"\r\""), ("&#13;&#10;", "\"\r\n\""), ("&#13;\n", "\"\r\n\""),
    ("\r&#10;", "\"\n\n\""),
    ("&#13;\r\n", "\"\r\n\""), ("&#13;\r", "\"\r\n\""), ("\r&#13;\n", "\"\n\r\n\""), ("&#10;\r", "\"\n\n\""), ("\r&#13;", "\"\n\r\""),
    ("&#13;<![CDATA[\n]]>", "\"\r\n\""), ("a&#13;b", "\"a\rb\""),
];

/// Each content in the root, and in an element between others, whose records it does not change.
fn fields() -> Vec<Told> {
    let mut cases = Vec::new();
    for (content, field) in FIELDS {
        cases.push(table("/g\n", format!("<g>{content}</g>"), &format!("g,{field}\r\n"), 1));
        let doc = format!("<g>1<v k='1'>{content}</v>2<h>3</h></g>");
        cases.push(table("/g\n/g/v\n/g/h\n", doc, &format!("g,12\r\ng/v,{field}\r\ng/h,3\r\n"), 3));
    }
    cases
}

/// Which elements have a record, and in which order.
fn records() -> Vec<Told> {
    let doc = "<a>1<b>2<c>3</c>4</b>5<d/>6</a>";
    vec![
        table("", doc, "", 0),
        table("/v\n", doc, "", 0),
        table("//*\n", doc, "a,156\r\na/b,24\r\na/b/c,3\r\na/d,\r\n", 4),
        table("//* #\n", doc, "a,156\r\na/b,24\r\na/b/c,3\r\na/d,\r\n", 4),
        table("/a\n", doc, "a,156\r\n", 1),
        table("/a #\n", doc, "a,156\r\n", 1),
        table("//c\n", doc, "a/b/c,3\r\n", 1),
        table("//d\n//c\n//b\n", doc, "a/b,24\r\na/b/c,3\r\na/d,\r\n", 3),
        // Once for each element, however many paths select it; marked and not.
        table("//c\n//c #\n/a/b/c\n//c\n", doc, "a/b/c,3\r\n", 1),
        table("//b #\n//c\n", doc, "a/b,24\r\na/b/c,3\r\n", 2),
        // Elements of the same names.
        table("//a\n", "<a>1<a>2<a>3</a>4</a>5</a>", "a,15\r\na/a,24\r\na/a/a,3\r\n", 3),
        table("/a/a\n", "<a>1<a>2<a>3</a>4</a>5<a>6</a></a>", "a/a,24\r\na/a,6\r\n", 2),
        table("//b\n", "<a><b>1</b><b/><b>2</b></a>", "a/b,1\r\na/b,\r\na/b,2\r\n", 3),
        // Empty tags and elements without text.
        table("//*\n", "<g/>", "g,\r\n", 1),
        table("//*\n", "<g></g>", "g,\r\n", 1),
        table("//*\n", "<g k=','/>", "g,\r\n", 1),
        table("//*\n", "<g ><v /></g >", "g,\r\ng/v,\r\n", 2),
        // By an attribute, and by the two steps that may stay.
        table("//v[@k=\"1\"]\n", "<g><v>a</v><v k='1'>b</v><v k='&#49;'>c</v></g>", "g/v,b\r\ng/v,c\r\n", 2),
        table("//v/self::v\n", "<g><v>a</v><n>b</n></g>", "g/v,a\r\n", 1),
        table("/g/descendant-or-self::*\n", "<g>a<v>b</v></g>", "g,a\r\ng/v,b\r\n", 2),
        table("/self::g\n", "<g>a</g>", "", 0),
        // What stands outside the root.
        table("//*\n", "\u{feff}<?xml version='1.0' encoding='UTF-8'?>\r\n<!--,--><g>a</g>\r\n<?p?>\n", "g,a\r\n", 1),
        // The text of an element that no path selects is in no record, also inside one that is selected with #.
        table("/g #\n", "<g>a<v>b</v></g>", "g,a\r\n", 1),
        table("//v\n", "<g>a<v>b</v>c</g>", "g/v,b\r\n", 1),
    ]
}

/// The names from the root, joined by `/`.
fn paths() -> Vec<Told> {
    let name = "n".repeat(255);
    let deep = format!("{}x{}", "<a>".repeat(64), "</a>".repeat(64));
    let path = vec!["a"; 64].join("/");
    let levels: String = (1..64).map(|level| format!("{},\r\n", &path[..2 * level - 1])).collect();
    vec![
        table("//*\n", "<\u{e9}><x:y><a-1.b/></x:y></\u{e9}>", "\u{e9},\r\n\u{e9}/x:y,\r\n\u{e9}/x:y/a-1.b,\r\n", 3),
        table("//*\n", "<e\u{301}><\u{10000}/></e\u{301}>", "e\u{301},\r\ne\u{301}/\u{10000},\r\n", 2),
        table("//*\n", "<a::b><:/></a::b>", "a::b,\r\na::b/:,\r\n", 2),
        table("//*\n", &deep, &format!("{levels}{path},x\r\n"), 64),
        table(&format!("/a{}\n", "/a".repeat(15)), &deep, &format!("{},\r\n", &path[..31]), 1),
        table("//*\n", format!("<{name}><{name}>,</{name}></{name}>"), &format!("{name},\r\n{name}/{name},\",\"\r\n"), 2),
        // At an end tag the path goes back.
        table("//*\n", "<a><b><c/></b><d/></a>", "a,\r\na/b,\r\na/b/c,\r\na/d,\r\n", 4),
    ]
}

/// "as for a cut"
fn refusals() -> Vec<Told> {
    let (long, steps, lines) = ("x".repeat(8_193), "/v".repeat(17) + "\n", "/v\n".repeat(33));
    let name = "n".repeat(256);
    let refused = |list: &str, doc: &[u8], number: u64, second: usize| Told::refused(list, doc, number, second);
    vec![
        refused(&long, b"", 1, 0),
        refused(&long, b"<g>\xff", 1, 0),
        refused("v\n", b"<g/>", 2, 1),
        refused("/v\n\n", b"\xff", 2, 2),
        refused(&steps, b"<g>", 3, 1),
        refused(&lines, b"<!DOCTYPE g>", 3, 33),
        refused("//v\n", b"<?xml version='1.0' encoding='latin1'?><g/>", 10, 0),
        refused("//v\n", b"\xef\xbb\xbf<?xml version='1.0' encoding='latin1'?><g>\xff", 10, 3),
        refused("//v\n", b"<g>\xff</g>", 5, 3),
        refused("//v\n", b"<!DOCTYPE g>\xff", 5, 12),
        refused("//v\n", b"<g>a,b\0</g>", 5, 6),
        refused("//v\n", b"<!DOCTYPE g><g/>", 6, 0),
        refused("//v\n", b"", 7, 0),
        refused("//v\n", b"<g>,</v>", 7, 4),
        refused("//v\n", b"<g>a</g>b", 7, 8),
        refused("//v\n", b"<g>a&x;</g>", 7, 4),
        refused("//v\n", b"<g>a]]></g>", 7, 3),
        refused("//v\n", b"<g><v>a</v>", 7, 11),
        refused("//v\n", "<a>".repeat(65).as_bytes(), 8, 192),
        refused("//v\n", format!("<g><{name}/></g>").as_bytes(), 8, 3),
    ]
}

/// 9 has the length of the whole table: 11 bytes of header, and here two records of 17 and 7.
fn rooms() -> Vec<Told> {
    let doc = "<g><v>a,\"b\"\r\nc</v><n>x</n></g>";
    let records = "g/v,\"a,\"\"b\"\"\nc\"\r\ng/n,x\r\n";
    assert_eq!(records.len(), 17 + 7);
    let mut cases = vec![table("//v\n//n\n", doc, records, 2)];
    cases.extend([34, 33, 24, 23, 12, 11, 10, 9, 1].map(|room| Told::refused("//v\n//n\n", doc, 9, 35).room(room)));
    cases.push(table("//v\n//n\n", doc, records, 2).room(300));
    cases.push(Told::refused("", doc, 9, 11).room(10));
    cases
}
