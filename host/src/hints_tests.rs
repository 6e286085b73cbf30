//! Documents with a fault, each judged by the library, and the hint that is given.
use super::*;

/// The number and the hint for a document.
fn said(document: &[u8]) -> (u64, String) {
    let refusal = choughbell::check(document).unwrap_err();
    (refusal.number(), hint(refusal, document, refusal.offset().unwrap() as usize).text)
}

fn says(document: &[u8], number: u64, text: &str) {
    assert_eq!(said(document), (number, text.to_string()), "{}", shown::all(document));
}

#[test]
fn characters() {
    says(b"<g>\xFF</g>", 5, "FF is not UTF-8");
    says(b"<g>\xE9t\xE9</g>", 5, "E9 is not UTF-8");
    says(b"<g>\xE2\x82", 5, "the end cuts E2 82 off");
    says(b"<g>\xFF", 5, "FF is not UTF-8");
    says("<g>\u{FFFE}</g>".as_bytes(), 5, "U+FFFE is no character of XML");
    says(b"<g>\x01</g>", 5, "U+0001 is no character of XML");
    says(b"\xFF\xFE<\0g\0/\0>\0", 5, "this seems to be UTF-16; a document is in UTF-8");
}

#[test]
fn encodings() {
    let converts = "xmllint --encode UTF-8 converts the file and its declaration";
    says(b"<?xml version='1.0' encoding='ISO-8859-1'?><g>\xE9</g>", 10, &format!("the declaration says \"ISO-8859-1\"; {converts}"));
    says(b"<?xml version=\"1.0\"\n encoding = \"UTF8\"\tstandalone='no'?>", 10, &format!("the declaration says \"UTF8\"; {converts}"));
    let long = format!("<?xml version='1.0' encoding='{}'?><g/>", "x".repeat(41));
    says(long.as_bytes(), 10, &format!("the declaration says \"{}...\"; {converts}", "x".repeat(40)));
    let marked = "the declaration says \"UTF-16\", but a byte order mark of UTF-8 stands before it: write UTF-8 there";
    says(b"\xEF\xBB\xBF<?xml version='1.0' encoding='UTF-16'?><g/>", 10, marked);
}

#[test]
fn ends_and_roots() {
    says(b"", 7, "there is no root");
    says(b"<!-- <g> -->", 7, "there is no root");
    says(b"<g>\n<v>\n", 7, "<v> of line 2 is open");
    says(b"<g>\n<v>\n</g>", 7, "<v> of line 2 is open");
    says(b"<g></ g>", 7, "an end tag is </, the name and >");
    says(b"<g></g", 7, "an end tag is </, the name and >");
    says(b"<g/></g>", 7, "no element is open");
    says(b"<g/><g/>", 7, "the root is closed, and there is only one");
    says(b"<g/>text", 7, OUTSIDE);
    says(b"<g/>&lt;", 7, OUTSIDE);
    says(b"<g/><![CDATA[]]>", 7, OUTSIDE);
}

#[test]
fn items() {
    says(b"<!DOCTYPE g><g/>", 6, "documents with a type are not taken");
    says(b"<g><!-- a -- b --></g>", 7, "a comment ends in --> and has no -- inside");
    says(b"<g><![CDATA[</g>", 7, "a section ends in ]]>");
    says(b"<!ELEMENT g ANY><g/>", 7, "<! begins a comment, <!--, or a section, <![CDATA[");
    says(b"<g a=1/>", 7, "a value stands in quotes");
    says(b"<g><1a/></g>", 7, "a name can't begin with 1; a < that begins no tag is written &lt;");
    says(b"<g>Pres & Moulins</g>", 7, "a & that begins no reference is written &amp;");
    says(b"<g>1 < 2</g>", 7, "a < that begins no tag is written &lt;");
    says(b"<g><", 7, "a < that begins no tag is written &lt;");
    says(b"<g>]]></g>", 7, "text has no ]]>");
    says(b"<g>&nbsp;</g>", 7, "a reference is &lt; &gt; &amp; &apos; &quot; or a character's number, as &#233;");
    says(b"\n<?xml version='1.0'?><g/>", 7, "the declaration stands at the very front");
    says(b"<g><?XML a?></g>", 7, "an instruction is <?, a name other than xml, a blank and its text, and ?>");
    let declaration = "a declaration is <?xml version=\"1.0\"?>, after the version perhaps encoding=\"UTF-8\" and standalone=\"yes\"";
    says(b"\xEF\xBB\xBF<?xml encoding='UTF-8'?><g/>", 7, declaration);
}

#[test]
fn blanks_that_are_none() {
    says("<g\u{A0}a='1'/>".as_bytes(), 7, "U+00A0 (no-break space) stands there; an attribute begins with a blank and its name");
    says("<g a='\u{A0}' b=1/>".as_bytes(), 7, "a value stands in quotes");
    says("<g/>\u{202F}".as_bytes(), 7, &format!("U+202F (narrow no-break space) stands there; {OUTSIDE}"));
}

#[test]
fn sizes() {
    says("<g>".repeat(65).as_bytes(), 8, "it is 65 deep; elements stand at most 64 deep");
    let (name, most) = ("g".repeat(256), "a name of 256 bytes; names have at most 255");
    says(format!("<{name}/>").as_bytes(), 8, most);
    says(format!("<g a='1' {name}=''/>").as_bytes(), 8, most);
    says(format!("<g></{name}>").as_bytes(), 8, most);
    let attributes: String = (0..34).map(|i| format!(" a{i}=''")).collect();
    says(format!("<g{attributes}/>").as_bytes(), 8, "it has 34 attributes; a tag has at most 32");
}

#[test]
fn faults_have_their_place() {
    let at = |document: &str| {
        let refusal = choughbell::check(document.as_bytes()).unwrap_err();
        hint(refusal, document.as_bytes(), refusal.offset().unwrap() as usize).at
    };
    assert_eq!(at("<g>one\ntwo ]]> three</g>"), Some(11));
    assert_eq!(at("<g/>\n\n end"), Some(7));
    assert_eq!(at("<g a='1'\n a='2'/>"), Some(10));
    assert_eq!(at("<g><!-- a\n -- b --></g>"), Some(11));
    assert_eq!(at("<g>a &nbsp; b</g>"), Some(5));
    assert_eq!(at("<g></v>"), Some(3));
    assert_eq!(at("<g>\u{1}</g>"), None);
    let many: String = (0..33).map(|i| format!(" a{i:02}=''")).collect();
    assert_eq!(at(&format!("<g{many}/>")), Some(2 + 32 * 7 + 1));
}
