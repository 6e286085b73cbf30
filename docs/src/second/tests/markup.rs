//! Corner cases of the productions for comments, CDATA sections, instructions and text, inside the root and outside.
//! The declaration is in `declaration`, references are in `references`.

use super::{fault, sound};

#[test]
fn comments() {
    for comment in ["<!---->", "<!-- -->", "<!--->-->", "<!--a-b-->", "<!-- - -->", "<!--&x;<]]>-->", "<!--->a-->"] {
        sound(format!("{comment}<g>{comment}</g>{comment}"));
    }
    for comment in ["<!--", "<!-->", "<!--->", "<!-- --", "<!-- -- -->", "<!-- --->", "<!----->", "<!--a--b-->"] {
        fault(format!("{comment}<g/>"), 7, 0);
        fault(format!("<g>{comment}</g>"), 7, 3);
    }
    fault("<g><!- - --></g>", 7, 3);
}

#[test]
fn cdata_sections() {
    for section in ["<![CDATA[]]>", "<![CDATA[]]]>", "<![CDATA[]]]]>", "<![CDATA[<&x;--]]>", "<![CDATA[<![CDATA[]]>"] {
        sound(format!("<g>{section}</g>"));
        fault(format!("{section}<g/>"), 7, 0);
    }
    for section in ["<![CDATA[", "<![CDATA[]]", "<![CDATA[]] >", "<![CDATA [ ]]>", "<![CDATA", "<![ CDATA[]]>"] {
        fault(format!("<g>{section}</g>"), 7, 3);
    }
    fault("<g><![CDATA[]]>]]></g>", 7, 15);
}

#[test]
fn instructions() {
    for instruction in ["<?p?>", "<?p ?>", "<?p x?>", "<?p ??>", "<?p\n<&--?>", "<?xm?>", "<?xmls?>", "<?xml-s x?>", "<?:?>"] {
        sound(format!("{instruction}<g>{instruction}</g>{instruction}"));
    }
    for instruction in ["<?", "<??>", "<? p?>", "<?p", "<?p x>", "<?p?x?>", "<?p>?>", "<?1?>", "<?p ?", "<?p\"\"?>"] {
        fault(format!("<g>{instruction}</g>"), 7, 3);
    }
    for instruction in ["<?xml?>", "<?XML x?>", "<?Xml ?>", "<?xMl?>", "<?xml x?>", "<?XML version='1.0'?>"] {
        fault(format!("{instruction}<g/>"), 7, 0);
        fault(format!("<g>{instruction}</g>"), 7, 3);
    }
}

#[test]
fn text() {
    for text in ["x", "]", "]]", "]>", "> >", "]] >", "\"'", "?>", "-->", "/>", "\r\n\t "] {
        sound(format!("<g>{text}</g>"));
    }
    for text in ["]]>", "x]]>x", "]]]>", "]]]]>"] {
        fault(format!("<g>{text}</g>"), 7, 3);
    }
    // White space is that of production [3] only.
    for text in ["\u{A0}", "\u{85}", "\u{2028}", "\u{3000}", ">", "\u{200B}"] {
        fault(format!("{text}<g/>"), 7, 0);
        fault(format!("<g/>\n{text}"), 7, 4);
    }
}
