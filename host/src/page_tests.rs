//! Texts of documents as pages have them.
use super::*;

fn part(fate: Fate, to: usize, lines: u32) -> Part {
    Part { fate, to, lines }
}

#[test]
fn everything_is_escaped() {
    assert_eq!(text(b"<script>&\"'\\</script>"), "&lt;script&gt;&amp;&quot;'\\&lt;/script&gt;");
    assert_eq!(text("é\t\u{202E}\u{A0}\r\n".as_bytes()), "é\t<kbd>\\u{202E}</kbd><kbd>\\u{A0}</kbd>\n");
    assert_eq!(text(b"a\rb\xFF\x00"), "a<kbd>\\r</kbd>b<kbd>\\xFF</kbd><kbd>\\u{0}</kbd>");
    assert!(head("<b>").contains("<title>&lt;b&gt;</title>"));
}

#[test]
fn rows_have_numbers_and_letters() {
    let document = b"<g>\n a<v/>\n</g>";
    let list = [part(Fate::Chain, 3, 0), part(Fate::Dropped, 6, 0), part(Fate::Tag, 10, 5), part(Fate::Dropped, 11, 0)];
    let html = parts(document, &[&list[..], &[part(Fate::Chain, 15, 0)]].concat(), true);
    let expected = "<div class=\"text\"><div><a id=\"L1\">1 C  </a><i>&lt;g&gt;</i>\n\
        <a id=\"L2\">2 TD </a> <s>a</s><sup>1,3</sup><u>&lt;v/&gt;</u>\n<a id=\"L3\">3 C  </a><i>&lt;/g&gt;</i></div>\n</div>\n";
    assert_eq!(html, expected);
    let two = [part(Fate::Tag, 3, 1), part(Fate::Tag, 15, 1)];
    assert_eq!(parts(document, &two, true).matches("<u>").count(), 4);
    let together = parts(document, &two, false);
    assert!(together.matches("<u>").count() == 3 && !together.contains("<sup>"), "{together}");
}

#[test]
fn what_is_dropped_is_folded() {
    let document = format!("<g>\n{}  <v/></g>", "x\n".repeat(9));
    let html = parts(document.as_bytes(), &[part(Fate::Chain, 3, 0), part(Fate::Dropped, 24, 0), part(Fate::Tag, 28, 1)], false);
    assert!(html.contains(
        "<i>&lt;g&gt;</i>\n</div>\n<details><summary>lines 2 to 10: 18 bytes dropped</summary>\n<div><a id=\"L2\">2 D  </a><s>x\n</s>"
    ));
    assert!(html.contains("</details>\n<div><a id=\"L11\">11 T  </a>  <u>&lt;v/&gt;</u></div>\n</div>\n"), "{html}");
    // Without line feeds all of it, and then the line goes on.
    let document = format!("<g>{}<v/></g>", "x".repeat(1001));
    let html = parts(document.as_bytes(), &[part(Fate::Chain, 3, 0), part(Fate::Dropped, 1004, 0), part(Fate::Tag, 1008, 1)], false);
    assert!(html.contains("<details><summary>line 1: 1,001 bytes dropped</summary>\n<div><s>xxx"), "{html}");
    assert!(html.contains("</details>\n<div><u>&lt;v/&gt;</u></div>"));
}

#[test]
fn long_rows_are_ended_between_characters() {
    let document = "é".repeat(BLOCK_BYTES);
    let html = parts(document.as_bytes(), &[part(Fate::Whole, document.len(), 0)], false);
    assert_eq!(html.matches('é').count(), BLOCK_BYTES);
    assert_eq!((html.matches("<div>").count(), html.matches("<a ").count()), (2, 1));
}

#[test]
fn a_fault_is_marked() {
    let document = format!("{}<v>\n{}", "x\n".repeat(20), "y\n".repeat(20));
    let html = refused(document.as_bytes(), 40..43);
    assert!(html.contains("<summary>lines 1 to 5: 10 bytes not shown</summary>"), "{html}");
    assert!(html.contains("<a id=\"L21\">21 !  </a><mark>&lt;v&gt;</mark>\n"));
    assert!(html.contains("<summary>lines 37 to 41: 10 bytes not shown</summary>"), "{html}");
    assert!(refused(b"<g>", 3..3).contains("<a id=\"L1\">1    </a>&lt;g&gt;"));
}
