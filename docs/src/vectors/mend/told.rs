// Mending by hand, with the readings. A document that is mended is told with what is kept of it and with the end tags, so
// that the length is the sum of both; what comes back as it is is told with itself.

use crate::calls::Told;

pub fn all() -> Vec<Told> {
    let tables = [sound(), ends(), every_end(), bad_sequences(), rootless(), behind(), faults(), sizes(), order()];
    tables.into_iter().flatten().flat_map(Told::in_rooms).collect()
}

/// This is kept, then come these end tags.
fn mended(doc: impl AsRef<[u8]>, kept: impl AsRef<[u8]>, tags: &[&str]) -> Told {
    let kept = kept.as_ref();
    let bytes = [kept, tags.iter().map(|name| format!("</{name}>")).collect::<String>().as_bytes()].concat();
    Told::kept("", doc, bytes, kept.len() as u64, tags.len() as u64)
}

fn none(doc: impl AsRef<[u8]>, offset: usize) -> Told {
    Told::refused("", doc, 12, offset)
}

/// "A sound document comes back unchanged with 0 added"
fn sound() -> Vec<Told> {
    let docs = [
        "<g/>", "<g></g>", "<g>Aar</g>", "<g> </g>", "<g><n>Aar</n> </g>\n", "<g/> \t\r\n", "\n<g/>", "<!--c--><g/><?p?>", "<g k='1' />",
        "<?xml version='1.0'?><g/>", "<?xml version='1.0' encoding='utf-8'?>\n<g></g >", "<g>]]&gt;<![CDATA[<h>]]></g>", "<g/><!--c-->",
        "<g>\u{feff}</g>", "<g><g><g/></g></g>", "<g>&#13;\r\n</g>", "<g/><?p <!DOCTYPE g>?>", "<\u{e9}>\u{10000}</\u{e9}>",
    ];
    docs.iter().flat_map(|doc| [mended(doc, doc, &[]), mended(format!("\u{feff}{doc}"), format!("\u{feff}{doc}"), &[])]).collect()
}

/// The end with an element open: a text that touches it is dropped, whatever else is whole is kept.
fn ends() -> Vec<Told> {
    vec![
        mended("<g><n>Aar", "<g><n>", &["n", "g"]),
        mended("\u{feff}<g><n>Aar", "\u{feff}<g><n>", &["n", "g"]),
        mended("<g>", "<g>", &["g"]),
        mended("<g>a", "<g>", &["g"]),
        mended("<g> ", "<g>", &["g"]),
        mended("<g>\r\n", "<g>", &["g"]),
        mended("<g>\u{e9}", "<g>", &["g"]),
        mended("<g>a]]", "<g>", &["g"]),
        mended("<g>a>", "<g>", &["g"]),
        mended("<g>Aar<", "<g>Aar", &["g"]),
        mended("<g> <", "<g> ", &["g"]),
        mended("<g>Aar</", "<g>Aar", &["g"]),
        mended("<g>Aar</g", "<g>Aar", &["g"]),
        mended("<g>Aar</g ", "<g>Aar", &["g"]),
        mended("<g>Aar&", "<g>Aar", &["g"]),
        mended("<g>a&am", "<g>a", &["g"]),
        mended("<g>a&amp", "<g>a", &["g"]),
        mended("<g>a&amp;", "<g>a&amp;", &["g"]),
        mended("<g>a&#65;", "<g>a&#65;", &["g"]),
        mended("<g>a&#32;", "<g>a&#32;", &["g"]),
        mended("<g>a&amp;b", "<g>a&amp;", &["g"]),
        mended("<g>&amp;&lt;", "<g>&amp;&lt;", &["g"]),
        mended("<g><![CDATA[x]]>", "<g><![CDATA[x]]>", &["g"]),
        mended("<g><![CDATA[x]]", "<g>", &["g"]),
        mended("<g>a<![CDATA[", "<g>a", &["g"]),
        mended("<g><![CDATA[x]]>y", "<g><![CDATA[x]]>", &["g"]),
        mended("<g><!--c-->", "<g><!--c-->", &["g"]),
        mended("<g>a<!--c--", "<g>a", &["g"]),
        mended("<g><!--c--> ", "<g><!--c-->", &["g"]),
        mended("<g><?p?>", "<g><?p?>", &["g"]),
        mended("<g>a<?p ?", "<g>a", &["g"]),
        mended("<g><n/>", "<g><n/>", &["g"]),
        mended("<g>a<n/", "<g>a", &["g"]),
        mended("<g><n></n>", "<g><n></n>", &["g"]),
        mended("<g><n></n>x", "<g><n></n>", &["g"]),
        mended("<g><n>a</n>b<v>c", "<g><n>a</n>b<v>", &["v", "g"]),
        mended("<a><b><c>", "<a><b><c>", &["c", "b", "a"]),
        mended("<a><b><c></c><d>", "<a><b><c></c><d>", &["d", "b", "a"]),
        mended("<a><a><a></a>", "<a><a><a></a>", &["a", "a"]),
        // A name as it stands, without the blanks and attributes of its tag.
        mended("<a ><b k='1'\n><c\t>", "<a ><b k='1'\n><c\t>", &["c", "b", "a"]),
        mended("<\u{e9}><x:y><a-1.b>", "<\u{e9}><x:y><a-1.b>", &["a-1.b", "x:y", "\u{e9}"]),
        mended("<!--c-->\n<g>", "<!--c-->\n<g>", &["g"]),
        mended("<?xml version='1.0' encoding='UTF-8'?><g>a<n>", "<?xml version='1.0' encoding='UTF-8'?><g>a<n>", &["n", "g"]),
        // An attribute's value that has not ended is no whole tag, though it looks like more.
        mended("<g>a<n k='<b>", "<g>a", &["g"]),
        mended("<g>a<n k='>b</n></g>", "<g>a", &["g"]),
        mended("<g>a<!--b</g>", "<g>a", &["g"]),
        mended("<g>a<![CDATA[b</g>", "<g>a", &["g"]),
    ]
}

/// One document, cut off at every place: from each of these ends on so much of it is kept.
fn every_end() -> Vec<Told> {
    let doc = "<g>a<n k='1'/>b<!--c--></g>";
    let kept = [(3..5, 3), (5..14, 4), (14..16, 14), (16..23, 15), (23..27, 23)];
    let mut cases: Vec<Told> = (0..3).map(|end| none(&doc[..end], 0)).collect();
    for (ends, kept) in kept {
        cases.extend(ends.map(|end| mended(&doc[..end], &doc[..kept], &["g"])));
    }
    // Every place inside `<v>`, with two elements open.
    let doc = "<g> <v>x</v> </g>";
    let kept = [(3..5, 3, &["g"][..]), (5..7, 4, &["g"]), (7..9, 7, &["v", "g"]), (9..12, 8, &["v", "g"]), (12..14, 12, &["g"])];
    for (ends, kept, tags) in kept {
        cases.extend(ends.map(|end| mended(&doc[..end], &doc[..kept], tags)));
    }
    cases
}

/// "For kind 5 the document is first cut at the bad sequence and judged again."
fn bad_sequences() -> Vec<Told> {
    vec![
        mended(b"<g>Aar\xff</g>", "<g>", &["g"]),
        mended(b"<g>Aar<n/>\xff</g>", "<g>Aar<n/>", &["g"]),
        mended(b"<g>Aar<n/>\xc3", "<g>Aar<n/>", &["g"]),
        mended(b"<g>Aar<n/>\xf0\x90\x80", "<g>Aar<n/>", &["g"]),
        mended(b"<g>Aar<n\xff/></g>", "<g>Aar", &["g"]),
        mended(b"<g>Aar<!--\xff--></g>", "<g>Aar", &["g"]),
        mended(b"<g>Aar&amp;\0</g>", "<g>Aar&amp;", &["g"]),
        mended(b"<g>Aar&am\0p;</g>", "<g>Aar", &["g"]),
        mended(b"<g>Aar</g\xff>", "<g>Aar", &["g"]),
        mended("<g>\u{e9}<n/>\u{ffff}", "<g>\u{e9}<n/>", &["g"]),
        mended("<g><n/>\u{1}<v/></g>", "<g><n/>", &["g"]),
        // White space that touches the cut is text too.
        mended(b"<g><n/> \xff</g>", "<g><n/>", &["g"]),
        // Cut to a sound document.
        mended(b"<g/>\xff", "<g/>", &[]),
        mended(b"<g></g>\xff<g/>", "<g></g>", &[]),
        mended(b"<g></g>\n\0", "<g></g>\n", &[]),
        mended(b"<g/><!--c-->\xff", "<g/><!--c-->", &[]),
        mended(b"\xef\xbb\xbf<g/>\xff", "\u{feff}<g/>", &[]),
        // An earlier fault of another kind decides then.
        mended(b"<g><n></g>\xff", "<g><n>", &["n", "g"]),
        mended(b"<g>a<!DOCTYPE g>\xff", "<g>a", &["g"]),
        mended(b"<g>a</h>b\xff</g>", "<g>a", &["g"]),
        mended(b"<g/>x\xff", "<g/>", &[]),
        mended(b"<g/><h>\xff", "<g/>", &[]),
        mended(b"<g>a&x;b<n/>\xff", "<g>a", &["g"]),
        // A text that is at fault only behind the cut is one that touches the end.
        mended(b"<g><n/>a]]\xff>b</g>", "<g><n/>", &["g"]),
        mended(b"<g/> \xffx", "<g/> ", &[]),
        mended(b"<g/> x\xff", "<g/>", &[]),
        // The first bad sequence of several.
        mended(b"<g><n/>\xff<v/>\xff", "<g><n/>", &["g"]),
        mended(b"<g><n/>\x01<v/>\xff", "<g><n/>", &["g"]),
        // No root tag before it: the fault is the one that is then found.
        none(b"\xff", 0),
        none(b"\xff<g/>", 0),
        none(b" \n\xff<g/>", 2),
        none(b"<g\xff/>", 0),
        none(b"<g k='\xff'/>", 0),
        none(b"<!--c-->\xff<g/>", 8),
        none(b"<!--\xff--><g/>", 0),
        none(b"x<g>\xff", 0),
        none(b"<!DOCTYPE g>\xff", 0),
        none(b" <!DOCTYPE g><g/>\xff", 1),
        none(b"<?xml version='1.0'?>\xff<g/>", 21),
        none(b"<?xml version='1.0'\xff?><g/>", 0),
        none(b"\xef\xbb\xbf\xff<g/>", 3),
        none(b"\xef\xbb", 0),
        none(b"\xef\xbb\xbe<g/>", 0),
        none(b"\xfe\xff\0<\0g\0/\0>", 0),
    ]
}

/// "12, with the offset of the fault ..., if no root tag was kept"
fn rootless() -> Vec<Told> {
    let long = "n".repeat(256);
    let many: String = (0..33).map(|i| format!(" k{i}=''")).collect();
    vec![
        none("", 0),
        none("\u{feff}", 3),
        none("\u{feff}\u{feff}<g/>", 3),
        none(" ", 1),
        none("\u{feff} \n", 5),
        none("<!--c--><?p?>", 13),
        none("<!--c--><?p", 8),
        none("<!--c", 0),
        none("<", 0),
        none("<g", 0),
        none("<g k='1'", 0),
        none("<g/", 0),
        none("\n<g", 1),
        none("<g k='1' k='2'/>", 0),
        none("<g k=1></g>", 0),
        none("<g k='<'></g>", 0),
        none("<1/>", 0),
        none("</g>", 0),
        none("<!--c--></g><g/>", 8),
        none("x", 0),
        none("x<g/>", 0),
        none(" x<g/>", 0),
        none("<!--c-->x<g/>", 8),
        none("]]><g/>", 0),
        none("&amp;<g/>", 0),
        none("&#32;<g/>", 0),
        none("<![CDATA[]]><g/>", 0),
        none("<!DOCTYPE g><g/>", 0),
        none("\u{feff}<!DOCTYPE g><g/>", 3),
        none("<!--c--><!DOCTYPE g><g/>", 8),
        none("<?xml version='2.0'?><g/>", 0),
        none("<?xml version='1.0'?>", 21),
        none("\u{feff}<?xml version='1.0'?>", 24),
        none(" <?xml version='1.0'?><g/>", 1),
        none("<?xml version='1.0'?><?XML?><g/>", 21),
        none(format!("<{long}/>"), 0),
        none(format!("<{long}></{long}>"), 0),
        none(format!("<!--c--><g {long}='1'/>"), 8),
        none(format!("<g{many}/>"), 0),
    ]
}

/// A fault after the root is closed: it and all behind it is dropped. White space that touches the end is kept there.
fn behind() -> Vec<Told> {
    vec![
        mended("<g/>x", "<g/>", &[]),
        mended("<g/> x", "<g/>", &[]),
        mended("<g/><!--c-->x", "<g/><!--c-->", &[]),
        mended("<g/>\n<!--c-->\n", "<g/>\n<!--c-->\n", &[]),
        mended("<g/>\n<!--c-->\n<", "<g/>\n<!--c-->\n", &[]),
        mended("<g/>\n<!--c--", "<g/>\n", &[]),
        mended("<g/><h/>", "<g/>", &[]),
        mended("<g/> <h>x</h>", "<g/> ", &[]),
        mended("<g></g></g>", "<g></g>", &[]),
        mended("<g/></g>", "<g/>", &[]),
        mended("<g/>&amp;", "<g/>", &[]),
        mended("<g/><![CDATA[]]>", "<g/>", &[]),
        mended("<g/> <!DOCTYPE g>", "<g/> ", &[]),
        mended("<g/><?xml version='1.0'?>", "<g/>", &[]),
        mended("<g/>\u{feff}", "<g/>", &[]),
        mended("<g>a</g>b</g>", "<g>a</g>", &[]),
    ]
}

/// Faults of the kinds 6, 7 and 8 inside the root.
fn faults() -> Vec<Told> {
    let long = "n".repeat(256);
    let many: String = (0..33).map(|i| format!(" k{i}=''")).collect();
    vec![
        mended("<g><n></g>", "<g><n>", &["n", "g"]),
        mended("<g><n>a</g></n>", "<g><n>a", &["n", "g"]),
        mended("<g><n>a</n>b</h>c</g>", "<g><n>a</n>b", &["g"]),
        mended("<g></G>", "<g>", &["g"]),
        mended("<g>a&x;b</g>", "<g>a", &["g"]),
        mended("<g>a&#0;b</g>", "<g>a", &["g"]),
        mended("<g>a]]>b</g>", "<g>", &["g"]),
        mended("<g><n/>a]]>b</g>", "<g><n/>", &["g"]),
        mended("<g><n/>a]]>", "<g><n/>", &["g"]),
        mended("<g>a<n k='1' k='2'/></g>", "<g>a", &["g"]),
        mended("<g>a<n k='1'l='2'/></g>", "<g>a", &["g"]),
        mended("<g>a<!--b--c--></g>", "<g>a", &["g"]),
        mended("<g>a<!--b---></g>", "<g>a", &["g"]),
        mended("<g>a<?xml version='1.0'?></g>", "<g>a", &["g"]),
        mended("<g>a<!DOCTYPE g>b</g>", "<g>a", &["g"]),
        mended("<g><n>a<!DOCTYPE", "<g><n>a", &["n", "g"]),
        mended("<g>a<!doctype g>b</g>", "<g>a", &["g"]),
        mended("<g>a< n/></g>", "<g>a", &["g"]),
        mended(format!("<g>a<{long}/></g>"), "<g>a", &["g"]),
        mended(format!("<g>a</{long}></g>"), "<g>a", &["g"]),
        mended(format!("<g>a<n {long}=''/></g>"), "<g>a", &["g"]),
        mended(format!("<g>a<n{many}/></g>"), "<g>a", &["g"]),
        // Two faults: the first item decides.
        mended(format!("<g>a<{long}/>b&x;c</g>"), "<g>a", &["g"]),
        mended(format!("<g>a&x;b<{long}/>c</g>"), "<g>a", &["g"]),
    ]
}

/// 64 levels and one more, and names of 255 bytes.
fn sizes() -> Vec<Told> {
    let (deep, name) = ("<a>".repeat(64), "n".repeat(255));
    let tags = ["a"; 64];
    vec![
        mended(&deep, &deep, &tags),
        mended(format!("{deep}x"), &deep, &tags),
        mended(format!("{deep}<a>"), &deep, &tags),
        mended(format!("{deep}<a/>"), &deep, &tags),
        mended(format!("{deep}x<a/>"), format!("{deep}x"), &tags),
        mended(format!("{deep}</a>"), format!("{deep}</a>"), &tags[1..]),
        mended(format!("{deep}</a><b>"), format!("{deep}</a><b>"), &[&["b"], &tags[1..]].concat()),
        mended(&deep[3..], &deep[3..], &tags[1..]),
        mended(format!("<{name}>"), format!("<{name}>"), &[&name]),
        mended(format!("<{name}><g>x"), format!("<{name}><g>"), &["g", &name]),
        mended(format!("<{name}>").repeat(64), format!("<{name}>").repeat(64), &[&name[..]; 64]),
    ]
}

/// 10 before 12 and before the cut for kind 5; it is judged on the document as it came.
fn order() -> Vec<Told> {
    let latin = "<?xml version='1.0' encoding='latin1'?>";
    let ten = |doc: &[u8], offset: usize| Told::refused("", doc, 10, offset);
    vec![
        ten(latin.as_bytes(), 0),
        ten(format!("{latin}<g>a").as_bytes(), 0),
        ten(format!("{latin}<g/>").as_bytes(), 0),
        ten(format!("{latin}<!DOCTYPE g>").as_bytes(), 0),
        ten(format!("\u{feff}{latin}<g>").as_bytes(), 3),
        ten(&[latin.as_bytes(), b"\xff"].concat(), 0),
        ten(&[latin.as_bytes(), b"<g>\xe9</g>"].concat(), 0),
        none("<?xml version='1.0' encoding='latin1'", 0),
        none("<?xml version='1.0' encoding='latin1'?", 0),
        none(b"<?xml version='1.0' encoding='latin1'\xff?><g/>", 0),
        none(b"<?xml version='1.0' encoding='lat\xc3\xafn'?><g/>", 0),
        mended("<?xml version='1.0' encoding='uTf-8'?><g>", "<?xml version='1.0' encoding='uTf-8'?><g>", &["g"]),
    ]
}
