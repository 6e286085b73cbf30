// Items that are no tag: text, comments, CDATA sections, instructions, and what looks like a document type.

use super::{fault, kept, refused, sound, Named};

pub fn all() -> Vec<Named> {
    let mut cases = texts();
    cases.extend(comments());
    cases.extend(sections());
    cases.extend(instructions());
    cases.extend(targets());
    cases.extend(doctypes());
    cases
}

fn texts() -> Vec<Named> {
    vec![
        sound("<g>Aar</g>"),
        sound("<g>></g>"),
        sound("<g>]</g>"),
        sound("<g>]]</g>"),
        sound("<g>]]&gt;</g>"),
        sound("<g>]]&#62;</g>"),
        sound("<g>]] ></g>"),
        sound("<g>]></g>"),
        sound("<g>]]<!---->></g>"),
        sound("<g>]]<v/>></g>"),
        sound("<g>]]<![CDATA[]]>></g>"),
        sound("<g>\t\r\n</g>"),
        sound("<g>--> ?> /> \"'</g>"),
        fault("<g>]]></g>", 3),
        fault("<g>]]]></g>", 3),
        fault("<g>a]]>b</g>", 3),
        fault("<g>a ]] b ]]></g>", 3),
        fault("<g>&amp;]]></g>", 8),
        fault("<g>&amp;a]]>b</g>", 8),
        fault("<g><v/>]]></g>", 7),
        fault("]]><g/>", 0),
        fault("<g/>]]>", 4),
        fault("<g>]]>", 3),
    ]
}

fn comments() -> Vec<Named> {
    vec![
        sound("<g><!----></g>"),
        sound("<g><!--a--></g>"),
        sound("<g><!-- a - b --></g>"),
        sound("<g><!--->x--></g>"),
        sound("<g><!-- <v> & ]]> </g> --></g>"),
        sound("<g><!--- a--></g>"),
        sound("<g><!--?><![CDATA[--></g>"),
        fault("<!-->", 0),
        fault("<g><!--></g>", 3),
        fault("<g><!---></g>", 3),
        fault("<g><!-- -- --></g>", 3),
        fault("<g><!-----></g>", 3),
        fault("<g><!------></g>", 3),
        fault("<g><!-- ---></g>", 3),
        fault("<g><!--a--b--></g>", 3),
        fault("<g><!-- --a></g>", 3),
        fault("<g><!-- -- ></g>", 3),
        fault("<g><!--", 3),
        fault("<g><!-- a", 3),
        fault("<g><!-- a-", 3),
        fault("<g><!-- a--", 3),
        fault("<g><!---", 3),
        fault("<g><!-a--></g>", 3),
        fault("<g><! --a--></g>", 3),
        fault("<g><!-", 3),
        fault("<g><!", 3),
        kept("", "<!--a--><g/><!--b-->", "<g></g>", 0),
        fault("<g/><!-- --a -->", 4),
    ]
}

fn sections() -> Vec<Named> {
    vec![
        sound("<g><![CDATA[]]></g>"),
        sound("<g><![CDATA[x]]></g>"),
        sound("<g><![CDATA[]]]></g>"),
        sound("<g><![CDATA[]]]]></g>"),
        sound("<g><![CDATA[>]]></g>"),
        sound("<g><![CDATA[]>]]></g>"),
        sound("<g><![CDATA[<v>&amp;&</g>]]></g>"),
        sound("<g><![CDATA[<![CDATA[]]></g>"),
        sound("<g><![CDATA[--]]><![CDATA[]]></g>"),
        fault("<g><![CDATA[<![CDATA[]]>]]></g>", 24),
        fault("<g><![CDATA[]]</g>", 3),
        fault("<g><![CDATA[]] ></g>", 3),
        fault("<g><![CDATA[", 3),
        fault("<g><![CDATA[x", 3),
        fault("<g><![CDATA[x]", 3),
        fault("<g><![CDATA[x]]", 3),
        fault("<g><![CDATA", 3),
        fault("<g><![cdata[]]></g>", 3),
        fault("<g><![CDATA []]></g>", 3),
        fault("<g><! [CDATA[]]></g>", 3),
        fault("<g><![ CDATA[]]></g>", 3),
        fault("<g><![IGNORE[]]></g>", 3),
        fault("<g/><![CDATA[x", 4),
    ]
}

fn instructions() -> Vec<Named> {
    vec![
        sound("<g><?a?></g>"),
        sound("<g><?a ?></g>"),
        sound("<g><?a\n\t?></g>"),
        sound("<g><?a b?></g>"),
        sound("<g><?a ?b?></g>"),
        sound("<g><?a ??></g>"),
        sound("<g><?a <v>&]]>--></g>?></g>"),
        sound("<g><?a:b?><?_?><?\u{e9}?><?a-1.b c?></g>"),
        fault("<g><?a?b?></g>", 3),
        fault("<g><?a??></g>", 3),
        fault("<g><?a", 3),
        fault("<g><?a?", 3),
        fault("<g><?a b", 3),
        fault("<g><?a b?", 3),
        fault("<g><?a ></g>", 3),
        fault("<g><?a? ></g>", 3),
        fault("<g><?a b? ></g>", 3),
        fault("<g><??></g>", 3),
        fault("<g><? ?></g>", 3),
        fault("<g><? a?></g>", 3),
        fault("<g><?1?></g>", 3),
        fault("<g><?-a?></g>", 3),
        fault("<g><?a,b?></g>", 3),
        fault("<g><?a=\"b\"?></g>", 3),
        fault("<g><?", 3),
        kept("", "<?a?> <g/><?b c?>", "<g></g>", 0),
    ]
}

fn targets() -> Vec<Named> {
    vec![
        fault("<?xml?><g/>", 0),
        fault("<?XML a?><g/>", 0),
        fault("<?Xml?><g/>", 0),
        fault("<?xMl a?><g/>", 0),
        fault("<?xmL\n?><g/>", 0),
        fault("<?XML version='1.0'?><g/>", 0),
        fault("<g><?xml?></g>", 3),
        fault("<g><?xml a?></g>", 3),
        fault("<g><?XmL a?></g>", 3),
        fault("<g/><?xml version='1.0'?>", 4),
        fault("<?a?><?xml version='1.0'?><g/>", 5),
        kept("", "<?xml-s?><g/>", "<g></g>", 0),
        kept("", "<?xmlx a?><g/>", "<g></g>", 0),
        kept("", "<?xml:a?><?xml.?><?xml1?><g/>", "<g></g>", 0),
        kept("", "<?xm?><?x?><?ml?><?axml?><g/>", "<g></g>", 0),
        kept("", "<?xml\u{e9}?><g/>", "<g></g>", 0),
        kept("", "<?XML-s a?><g/>", "<g></g>", 0),
    ]
}

fn doctypes() -> Vec<Named> {
    vec![
        refused("", "<!DOCTYPE g><g/>", 6, 0),
        refused("", "<!DOCTYPE", 6, 0),
        refused("", "<!DOCTYPEg><g/>", 6, 0),
        refused("", " <!DOCTYPE g><g/>", 6, 1),
        refused("", "<?xml version='1.0'?><!DOCTYPE g><g/>", 6, 21),
        refused("", "<g><!DOCTYPE g></g>", 6, 3),
        refused("", "<g>Aar<!DOCTYPE", 6, 6),
        refused("", "<g/><!DOCTYPE g>", 6, 4),
        refused("", "<g/><!---->\n<!DOCTYPE g>", 6, 12),
        refused("", "<!DOCTYPE g [ <!ELEMENT g ANY> ]><g/>", 6, 0),
        fault("<!DOCTYP g><g/>", 0),
        fault("<!DOCTYP", 0),
        fault("<!doctype g><g/>", 0),
        fault("<!Doctype g><g/>", 0),
        fault("<! DOCTYPE g><g/>", 0),
        fault("<!ELEMENT g ANY><g/>", 0),
        fault("<g k='<!DOCTYPE'/>", 0),
        fault("<g <!DOCTYPE g>/>", 0),
        fault("</<!DOCTYPE g>", 0),
        kept("", "<!--<!DOCTYPE--><g/><?a <!DOCTYPE?>", "<g></g>", 0),
        sound("<g><![CDATA[<!DOCTYPE]]></g>"),
        sound("<g>!DOCTYPE</g>"),
    ]
}
