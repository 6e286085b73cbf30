//! Corner cases of the productions for tags and attribute values, and the matching of tags. References as items of
//! their own are in `references`.

use super::{fault, sound};

#[test]
fn start_and_empty_tags() {
    for tag in ["<g>", "<g >", "<g\r\n\t>", "<g k='1'>", "<g k = '1' l\n=\n\"2\" >", "<g xml:lang='x' xmlns='y' :='z'>"] {
        sound(format!("{tag}</g>"));
    }
    for tag in ["<g/>", "<g />", "<g k='1'/>", "<g k='/>' />", "<g k='1'\n/>", "<g a='' A='' b=\"'\" c='\"'/>"] {
        sound(tag);
    }
    for tag in ["<", "<>", "< g/>", "<g", "<g/", "<g/ >", "<g / >", "<g//>", "<1/>", "<!g/>", "<g<h/>", "<g=''/>", "</>"] {
        fault(tag, 7, 0);
    }
}

#[test]
fn attributes() {
    for inside in ["k", "k=", "k=1", "k='", "k='1", "k='1\"", "='1'", "k=''l=''", "k='' l", "1k=''", "k==''", "k=''/k=''"] {
        fault(format!("<g {inside}/>"), 7, 0);
        fault(format!("<g {inside}></g>"), 7, 0);
    }
    fault("<gk=''/>", 7, 0);
    fault("<g k='' k=''/>", 7, 0);
    fault("<g><v k='' l='' k=\"x\"></v></g>", 7, 3);
    fault("<g k=''\u{A0}l=''/>", 7, 0);
}

#[test]
fn attribute_values() {
    for value in ["", " ", ">", "/>", "]]>", "-->", "\n\r\t", "&amp;&lt;&gt;&apos;&quot;", "&#60;&#x3C;&#38;", "\u{FEFF}"] {
        sound(format!("<g k='{value}' l=\"{value}\"/>"));
        sound(format!("<g k='{value}' l=\"{value}\"></g>"));
    }
    for value in ["<", "x<y", "&", "& ", "&amp", "&amp ;", "&x;", "&#;", "&#x;", "&#0;", "&#xFFFE;", "&;"] {
        fault(format!("<g k='{value}'/>"), 7, 0);
        fault(format!("<g><v k=\"{value}\"></v></g>"), 7, 3);
    }
}

#[test]
fn end_tags() {
    for tag in ["</g>", "</g >", "</g\r\n\t >"] {
        sound(format!("<g>{tag}"));
    }
    for tag in ["</ g>", "</>", "</", "</g", "</g ", "</g/>", "</g k=''>", "</g x>", "</g\u{A0}>", "< /g>", "</g</g>"] {
        fault(format!("<g>{tag}"), 7, 3);
    }
}

#[test]
fn matching() {
    fault("<g></G>", 7, 3);
    fault("<g></gg>", 7, 3);
    fault("<gg></g>", 7, 4);
    fault("<a:g></g>", 7, 5);
    fault("<g><v></g></v>", 7, 6);
    fault("<g><v/></v></g>", 7, 7);
    fault("<g></g></g>", 7, 7);
    sound("<g><g></g><g><g/></g></g>");
}
