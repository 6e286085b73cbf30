//! Mending, document 02, Q-11, with the readings. Of what is mended the bytes kept and the end tags are told apart.

use super::{lent, refusal};
use crate::{judge, mend, Numbers};

/// The bytes kept, then the end tags, so many: in exactly the room, and in more; 9 with one byte less and with none. The filter
/// accepts the result, and mended again it stays as it is.
fn mended(doc: impl AsRef<[u8]>, kept: impl AsRef<[u8]>, tags: &str, added: u64) {
    let (doc, kept) = (doc.as_ref(), kept.as_ref());
    let result = [kept, tags.as_bytes()].concat();
    mended_in(doc, &result, kept.len(), added);
    assert_eq!(judge(&result), None);
    mended_in(&result, &result, result.len(), 0);
}

fn mended_in(doc: &[u8], result: &[u8], kept: usize, added: u64) {
    for room in [result.len(), result.len() + 7] {
        let mut out = lent(room);
        let expected = Numbers { number: 0, second: result.len() as u64, third: kept as u64, fourth: added };
        assert_eq!(mend(doc, &mut out), expected, "{}", String::from_utf8_lossy(doc));
        assert_eq!(String::from_utf8_lossy(&out[..result.len()]), String::from_utf8_lossy(result));
        assert_eq!(out[result.len()..], lent(room)[result.len()..]);
    }
    refused_in(doc, result.len() - 1, 9, result.len());
    refused_in(doc, 0, 9, result.len());
}

fn refused_in(doc: &[u8], room: usize, number: u64, second: usize) {
    let mut out = lent(room);
    assert_eq!(mend(doc, &mut out), refusal(number, second), "{}", String::from_utf8_lossy(doc));
    assert!(out == lent(room));
}

fn refused(doc: impl AsRef<[u8]>, number: u64, second: usize) {
    for room in [0, 1, 100] {
        refused_in(doc.as_ref(), room, number, second);
    }
}

/// "From `<g><n>Aar` it makes `<g><n></n></g>`, 6 kept, 2 added."
#[test]
fn the_example() {
    mended("<g><n>Aar", "<g><n>", "</n></g>", 2);
    let mut out = [0; 14];
    assert_eq!(mend(b"<g><n>Aar", &mut out), Numbers { number: 0, second: 14, third: 6, fourth: 2 });
    assert_eq!(&out, b"<g><n></n></g>");
}

#[test]
fn a_sound_document_comes_back() {
    for doc in ["<g/>", "<g></g>", "<g>Aar</g>", "<g><n>Aar</n> </g>\n", "<!--c--><g/><?p?>", "<?xml version='1.0'?>\n<g k='1'/> "] {
        mended(doc, doc, "", 0);
        mended(format!("\u{FEFF}{doc}"), format!("\u{FEFF}{doc}"), "", 0);
    }
}

/// `<g>a<n k='1'/>b<!--c--></g>` cut off at every place: from each end on, so much of it is kept. A text that touches the end is
/// dropped, and is whole with one byte of what follows it.
#[test]
fn cut_off() {
    let doc = "<g>a<n k='1'/>b<!--c--></g>";
    (0..3).for_each(|end| refused(&doc[..end], 12, 0));
    let kept = [(3..5, 3), (5..14, 4), (14..16, 14), (16..23, 15), (23..27, 23)];
    for (ends, kept) in kept {
        ends.for_each(|end| mended(&doc[..end], &doc[..kept], "</g>", 1));
    }
    mended(doc, doc, "", 0);
}

///
#[test]
fn what_touches_the_end() {
    mended("<g>Aar<", "<g>Aar", "</g>", 1);
    mended("<g>a&am", "<g>a", "</g>", 1);
    mended("<g> ", "<g>", "</g>", 1);
    mended("<g>\n", "<g>", "</g>", 1);
    mended("<g>a&amp;", "<g>a&amp;", "</g>", 1);
    mended("<g>a&amp;b", "<g>a&amp;", "</g>", 1);
    mended("<g><![CDATA[x]]>", "<g><![CDATA[x]]>", "</g>", 1);
    mended("<g><!--c-->", "<g><!--c-->", "</g>", 1);
    mended("<g><?p?>", "<g><?p?>", "</g>", 1);
    mended("<g><n/>", "<g><n/>", "</g>", 1);
    mended("<g><n></n>", "<g><n></n>", "</g>", 1);
    // The end of the document, not the fault.
    mended("<g>Aar</h>", "<g>Aar", "</g>", 1);
    mended("<g>Aar<!DOCTYPE g>", "<g>Aar", "</g>", 1);
}

/// for kind 5 the document is cut first, and an earlier fault of another kind may decide.
#[test]
fn cut_at_a_bad_sequence() {
    mended(b"<g>Aar\xFF</g>", "<g>", "</g>", 1);
    mended(b"<g>Aar<n/>\xC3", "<g>Aar<n/>", "</g>", 1);
    mended(b"<g/>\xFF", "<g/>", "", 0);
    mended(b"<g></g>\n\0<g/>", "<g></g>\n", "", 0);
    mended(b"<g><n></g>\xFF", "<g><n>", "</n></g>", 2);
    mended(b"<g>a<!DOCTYPE g>\xFF", "<g>a", "</g>", 1);
    // Behind the cut it would have been `]]>`.
    mended(b"<g>a]]\xFF>", "<g>", "</g>", 1);
    mended(b"<g>a]]>\xFF", "<g>", "</g>", 1);
    mended(b"<g><n/>a]]>b<n/>\xFF", "<g><n/>", "</g>", 1);
    mended("<g>\u{E9}<n/>\u{FFFF}", "<g>\u{E9}<n/>", "</g>", 1);
    refused(b"\xFF", 12, 0);
    refused(b"<g\xFF/>", 12, 0);
    refused(b"<!--c-->\xFF<g/>", 12, 8);
    refused(b"x<g>\xFF", 12, 0);
    refused(b" \n\x01<g/>", 12, 2);
}

///
#[test]
fn no_root_tag() {
    refused("", 12, 0);
    refused("\u{FEFF}", 12, 3);
    refused(b"\xEF\xBB", 12, 0);
    refused(" \n", 12, 2);
    refused("<!--c--><?p?>", 12, 13);
    refused("<!--c--><?p", 12, 8);
    refused("x<g/>", 12, 0);
    refused("<!DOCTYPE g><g/>", 12, 0);
    refused("\u{FEFF}<!DOCTYPE g><g/>", 12, 3);
    refused("</g>", 12, 0);
    refused("<g", 12, 0);
    refused("<g k='1' k='2'/>", 12, 0);
    refused(format!("<!--c--><{}/>", "n".repeat(256)), 12, 8);
    refused("<?xml version='2.0'?><g/>", 12, 0);
    refused("<?xml version='1.0'?>", 12, 21);
    refused("&amp;<g/>", 12, 0);
}

///
#[test]
fn after_the_root() {
    mended("<g/>x", "<g/>", "", 0);
    mended("<g/><h/>", "<g/>", "", 0);
    mended("<g></g></g>", "<g></g>", "", 0);
    mended("<g/> \n", "<g/> \n", "", 0);
    mended("<g/> x", "<g/>", "", 0);
    mended("<g/><!--c--><!-", "<g/><!--c-->", "", 0);
    mended("<g/> <!DOCTYPE g>", "<g/> ", "", 0);
    mended("<g/>&amp;", "<g/>", "", 0);
}

#[test]
fn faults_of_each_kind() {
    mended("<g><n></g>", "<g><n>", "</n></g>", 2);
    mended("<g><n>a</n>b</h>c</g>", "<g><n>a</n>b", "</g>", 1);
    mended("<g>a&x;b</g>", "<g>a", "</g>", 1);
    mended("<g><n k='1' k='2'/></g>", "<g>", "</g>", 1);
    mended("<g><!--a--b--></g>", "<g>", "</g>", 1);
    mended("<g><?xml version='1.0'?></g>", "<g>", "</g>", 1);
    let long = "n".repeat(256);
    mended(format!("<g>a<{long}/></g>"), "<g>a", "</g>", 1);
    let names = "<a>".repeat(64);
    mended(names.clone() + "<a>", &names, &"</a>".repeat(64), 64);
    mended(names.clone() + "x", &names, &"</a>".repeat(64), 64);
    mended("<a><b><c>", "<a><b><c>", "</c></b></a>", 3);
    mended("<a ><b k='1' ><c\n>", "<a ><b k='1' ><c\n>", "</c></b></a>", 3);
}

#[test]
fn refusals_in_order() {
    let latin = "<?xml version='1.0' encoding='latin1'?>";
    refused(latin, 10, 0);
    refused(format!("{latin}<g>"), 10, 0);
    refused(format!("\u{FEFF}{latin}<g/>"), 10, 3);
    refused([latin.as_bytes(), b"\xFF"].concat(), 10, 0);
    refused("<?xml version='1.0' encoding='latin1'", 12, 0);
    refused(b"<?xml version='1.0' encoding='latin1'\xFF?><g/>", 12, 0);
    let mut long = latin.as_bytes().to_vec();
    long.resize(16_777_217, b'x');
    refused(&long, 4, 0);
    refused([latin.as_bytes(), b"<g>"].concat(), 10, 0);
}

/// the result may be longer than a document may be.
#[test]
fn the_size_of_a_document() {
    let mut doc = b"<g>".to_vec();
    doc.resize(16_777_213, b'.');
    doc.extend_from_slice(b"<n>");
    let result = [&doc[..], b"</n></g>"].concat();
    mended_in(&doc, &result, 16_777_216, 2);
    assert_eq!(judge(&result), Some(refusal(4, 0)));
    doc.push(b'x');
    refused(&doc, 4, 0);
}
