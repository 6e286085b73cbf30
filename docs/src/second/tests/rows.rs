//! Rows for a spreadsheet, document 02, Q-8, with the readings. Tables are told without their header, with CR LF.

use super::lent;
use crate::rows;
use crate::three::Three;

/// The table is the header and this, with exactly its room and with more; 9 with one byte less and with none.
fn table(list: &str, doc: impl AsRef<[u8]>, records: &str, selected: u64) {
    let (doc, table) = (doc.as_ref(), format!("path,text\r\n{records}"));
    for room in [table.len(), table.len() + 7] {
        let mut out = lent(room);
        let numbers = rows(list.as_bytes(), doc, &mut out);
        assert_eq!(String::from_utf8_lossy(&out[..table.len()]), table);
        assert_eq!(numbers, Three { number: 0, second: table.len() as u64, third: selected });
        assert_eq!(out[table.len()..], lent(room)[table.len()..]);
    }
    refused_in(list.as_bytes(), doc, table.len() - 1, 9, table.len());
    refused_in(list.as_bytes(), doc, 0, 9, table.len());
}

/// One record for the root `g`, whose text has this second field.
fn field(content: &str, field: &str) {
    table("/g\n", format!("<g>{content}</g>"), &format!("g,{field}\r\n"), 1);
}

fn refused_in(list: &[u8], doc: &[u8], room: usize, number: u64, second: usize) {
    let mut out = lent(room);
    assert_eq!(rows(list, doc, &mut out), Three { number, second: second as u64, third: 0 });
    assert!(out == lent(room));
}

fn refused(list: impl AsRef<[u8]>, doc: impl AsRef<[u8]>, number: u64, second: usize) {
    for room in [0, 1, 100] {
        refused_in(list.as_ref(), doc.as_ref(), room, number, second);
    }
}

#[test]
fn records() {
    table("//n\n", "<g><v k=\"1\"><n>Aar</n></v></g>", "g/v/n,Aar\r\n", 1);
    table("//v\n//n\n", "<g><v>a<n>b</n>c</v></g>", "g/v,ac\r\ng/v/n,b\r\n", 2);
    table("//*\n", "<g><a>1</a><b>2</b></g>", "g,\r\ng/a,1\r\ng/b,2\r\n", 3);
    table("/g\n", "<g/>", "g,\r\n", 1);
    table("/g\n", "<g></g>", "g,\r\n", 1);
}

/// "none selected is the header only, third number 0".
#[test]
fn none_selected() {
    table("", "<g>Aar</g>", "", 0);
    table("/v\n", "<g>Aar</g>", "", 0);
}

/// The order of start tags, also where the text comes after the children.
#[test]
fn order_of_start_tags() {
    table("//*\n", "<a><b><c>1</c>2</b>3<d/>4</a>", "a,34\r\na/b,2\r\na/b/c,1\r\na/d,\r\n", 4);
    table("//c\n//b\n", "<a><b/><c/><b/></a>", "a/b,\r\na/c,\r\na/b,\r\n", 3);
}

/// "The mark # changes nothing here", and R-29: "An element that several paths select has one record".
#[test]
fn marks_and_several_paths() {
    table("//v #\n", "<g><v>a<n>b</n></v></g>", "g/v,a\r\n", 1);
    table("//v #\n//v\n/g/v\n//n\n", "<g><v>a<n>b</n></v></g>", "g/v,a\r\ng/v/n,b\r\n", 2);
    table("//v[@k=\"1\"]\n", "<g><v>a</v><v k='1'>b</v></g>", "g/v,b\r\n", 1);
    table("//v/self::v\n", "<g><v>a</v></g>", "g/v,a\r\n", 1);
}

/// joined across comments, instructions and children, with nothing trimmed.
#[test]
fn text_directly_inside() {
    field("a<!--x-->b<?p y?>c<n>d</n>e", "abce");
    field(" a <n/> b ", " a  b ");
    field("<n>x</n>", "");
    field("<![CDATA[a]]>", "a");
    field("a<![CDATA[<b>&amp;]]>c", "a<b>&amp;c");
    field("<![CDATA[]]><![CDATA[]]]]>", "]]");
    field("\u{E9}e\u{301}\u{10000}", "\u{E9}e\u{301}\u{10000}");
    field("\t", "\t");
    field("'", "'");
}

#[test]
fn references() {
    field("&amp;&lt;&gt;&apos;", "&<>'");
    field("&#65;&#x42;&#x10FFFF;", "AB\u{10FFFF}");
    field("&amp;lt;", "&lt;");
    field("&quot;", "\"\"\"\"");
    field("&#44;", "\",\"");
    field("&#9;", "\t");
}

#[test]
fn quotes() {
    field("a,b", "\"a,b\"");
    field("a\"b", "\"a\"\"b\"");
    field("\"", "\"\"\"\"");
    field("\"\"", "\"\"\"\"\"\"");
    field(",", "\",\"");
    field("a\nb", "\"a\nb\"");
    field("<![CDATA[,\"]]>", "\",\"\"\"");
    field(",<n/>,", "\",,\"");
    field(";", ";");
    field("a b/c", "a b/c");
    field("=1+1", "=1+1");
}

/// literal CR LF and CR are made LF where they stand side by side in the document; references stay what they are.
#[test]
fn line_ends() {
    field("a\r\nb", "\"a\nb\"");
    field("a\rb", "\"a\nb\"");
    field("a\n\rb", "\"a\n\nb\"");
    field("a\r\r\nb", "\"a\n\nb\"");
    field("<![CDATA[\r\n\r]]>", "\"\n\n\"");
    field("a\r<![CDATA[\nb]]>", "\"a\n\nb\"");
    field("<![CDATA[\r]]>\n", "\"\n\n\"");
    field("\r<!--c-->\n", "\"\n\n\"");
    field("\r<n/>\n", "\"\n\n\"");
    field("\r&#10;", "\"\n\n\"");
    field("&#13;\n", "\"\r\n\"");
    field("&#13;", "\"\r\"");
    field("&#13;&#10;", "\"\r\n\"");
    field("&#10;", "\"\n\"");
    field("&#13;\r\n", "\"\r\n\"");
}

/// What stands outside the root is in no element.
#[test]
fn outside_the_root() {
    table("//*\n", "\u{FEFF}<?xml version='1.0'?>\n<!--c--><g>a</g>\r\n<?p?>", "g,a\r\n", 1);
}

#[test]
fn names() {
    table("//*\n", "<\u{E9}><x:y><a-1.b/></x:y></\u{E9}>", "\u{E9},\r\n\u{E9}/x:y,\r\n\u{E9}/x:y/a-1.b,\r\n", 3);
    let deep = "<a>".repeat(64) + "x" + &"</a>".repeat(64);
    let path = vec!["a"; 64].join("/");
    let records: String = (1..64).map(|level| format!("{},\r\n", &path[..2 * level - 1])).collect();
    table("//*\n", deep, &format!("{records}{path},x\r\n"), 64);
}

#[test]
fn refusals_as_for_a_cut() {
    refused("x".repeat(8_193), "", 1, 0);
    refused("x\n", b"\xFF", 2, 1);
    refused("/v\n".repeat(33), "<g/>", 3, 33);
    refused("//v\n", vec![b' '; 16_777_217], 4, 0);
    refused("//v\n", b"<?xml version='1.0' encoding='latin1'?>\xFF", 10, 0);
    refused("//v\n", b"<g>\xFF<!DOCTYPE", 5, 3);
    refused("//v\n", "<!DOCTYPE g><g/>", 6, 0);
    refused("//v\n", "<g>,</v>", 7, 4);
    refused("//v\n", "", 7, 0);
    refused("//v\n", "<a>".repeat(65), 8, 192);
    refused_in(b"//v\n", b"<g><v>a,b</v></g>", 21, 9, 22);
}
