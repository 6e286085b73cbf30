// Start, empty and end tags: names, blanks, attributes, values, and attributes of one name.

use super::{fault, sound, Named};

pub fn all() -> Vec<Named> {
    let mut cases = sound_tags();
    cases.extend(names());
    cases.extend(attributes());
    cases.extend(values());
    cases.extend(ends());
    cases.extend(repeated());
    cases.extend(far_from_the_end());
    cases
}

fn sound_tags() -> Vec<Named> {
    vec![
        sound("<g/>"),
        sound("<g />"),
        sound("<g\t\r\n/>"),
        sound("<g></g>"),
        sound("<g ></g >"),
        sound("<g\n></g\n>"),
        sound("<g k=\"1\"/>"),
        sound("<g k='1'></g>"),
        sound("<g k='1' l=\"2\"/>"),
        sound("<g  k  =  '1'  />"),
        sound("<g\nk\n=\n'1'\n></g>"),
        sound("<g k=''/>"),
        sound("<g k=\"\" ></g>"),
        sound("<g k='>'/>"),
        sound("<g k='/>'/>"),
        sound("<g k='\"'/>"),
        sound("<g k=\"'\"/>"),
        sound("<g k=']]>'/>"),
        sound("<g k='--'/>"),
        sound("<g k='\t\r\n'/>"),
        sound("<g k='&lt;&amp;&#60;&#x3c;'/>"),
        sound("<g a:b:c='1' :='2' _='3'/>"),
        sound("<g xmlns='' xmlns:a='' xml:a=''/>"),
        sound("<g k-1.\u{b7}='1'/>"),
        sound("<_/>"),
        sound("<:/>"),
        sound("<a:b:c/>"),
        sound("<g.-1/>"),
        sound("<xml/>"),
    ]
}

fn names() -> Vec<Named> {
    vec![
        fault("<", 0),
        fault("<>", 0),
        fault("</>", 0),
        fault("< g/>", 0),
        fault("<\ng/>", 0),
        fault("<1/>", 0),
        fault("<-g/>", 0),
        fault("<.g/>", 0),
        fault("<g", 0),
        fault("<g ", 0),
        fault("<g/", 0),
        fault("<g/ >", 0),
        fault("<a / >", 0),
        fault("<g//>", 0),
        fault("<g,/>", 0),
        fault("<g<v/></g>", 0),
        fault("<g><<v/></g>", 3),
        fault("<g>< </g>", 3),
        fault("<g><", 3),
        fault("<g><v", 3),
        fault("<g>a < b</g>", 5),
        fault("<$/>", 0),
        fault("<g$/>", 0),
        fault("<'g'/>", 0),
        fault("<&amp;/>", 0),
    ]
}

fn attributes() -> Vec<Named> {
    vec![
        fault("<g k='1'l='2'/>", 0),
        fault("<g k=\"1\"l=\"2\"></g>", 0),
        fault("<gk='1'/>", 0),
        fault("<g'1'/>", 0),
        fault("<g k/>", 0),
        fault("<g k></g>", 0),
        fault("<g k l='1'/>", 0),
        fault("<g k=/>", 0),
        fault("<g k= />", 0),
        fault("<g ='1'/>", 0),
        fault("<g '1'/>", 0),
        fault("<g k='1' '2'/>", 0),
        fault("<g k=='1'/>", 0),
        fault("<g k:'1'/>", 0),
        fault("<g 1='1'/>", 0),
        fault("<g -k='1'/>", 0),
        fault("<g k='1' /x>", 0),
        fault("<g k='1'/ >", 0),
        fault("<g k", 0),
        fault("<g k=", 0),
        fault("<g k='", 0),
        fault("<g k='1", 0),
        fault("<g k='1'", 0),
        fault("<g k='1' ", 0),
        fault("<g k='1'/", 0),
        fault("<g/k='1'>", 0),
        fault("<g k='1',l='2'/>", 0),
        fault("<g k.l/>", 0),
    ]
}

fn values() -> Vec<Named> {
    vec![
        fault("<g b=1/>", 0),
        fault("<a b=1>", 0),
        fault("<a b='<'>", 0),
        fault("<a b='<'/>", 0),
        fault("<a b=\"<\"/>", 0),
        fault("<a b='x<y'/>", 0),
        fault("<a b='&'/>", 0),
        fault("<a b='& '/>", 0),
        fault("<a b='&lt'/>", 0),
        fault("<a b='&foo;'/>", 0),
        fault("<a b='&#0;'/>", 0),
        fault("<a b='&#xD800;'/>", 0),
        fault("<a b='&#;'/>", 0),
        fault("<a b='&#X41;'/>", 0),
        fault("<a b='1\"/>", 0),
        fault("<a b=\"1'/>", 0),
        fault("<a b='1''/>", 0),
        fault("<a b=''1'/>", 0),
        fault("<a b=`1`/>", 0),
        fault("<a b='&lt", 0),
        fault("<a b='&", 0),
        fault("<g><a b='&amp' c=';'/></g>", 3),
        sound("<a b=\"&lt;\"></a>"),
        sound("<a b=\"&lt;\"/>"),
        sound("<a b='&amp;lt;&#x10FFFF;&quot;&apos;&gt;'/>"),
        sound("<a b='&#000000065;'/>"),
    ]
}

fn ends() -> Vec<Named> {
    vec![
        sound("<a></a \t\r\n>"),
        fault("<a></a b>", 3),
        fault("<a></ a>", 3),
        fault("<a></a k='1'>", 3),
        fault("<a></a/>", 3),
        fault("<a></a", 3),
        fault("<a></a ", 3),
        fault("<a></", 3),
        fault("<a></>", 3),
        fault("<a></ >", 3),
        fault("<a><//a>", 3),
        fault("<a></1>", 3),
        fault("<a></a</a>", 3),
        fault("<a></A>", 3),
        fault("<a></aa>", 3),
        fault("<aa></a>", 4),
        fault("<a></b>", 3),
        fault("<a><b></a></b>", 6),
        fault("<a><b></b></b></a>", 10),
        fault("<a/></a>", 4),
        fault("</a>", 0),
        fault("</a b>", 0),
        fault("<x:a xmlns:x='u' xmlns:y='u'></y:a>", 29),
    ]
}

fn repeated() -> Vec<Named> {
    vec![
        fault("<g k='1' k='1'/>", 0),
        fault("<g k='1' k=\"2\"></g>", 0),
        fault("<g k='' l='' k=''/>", 0),
        fault("<g k='' l='' m='' n='' m=''/>", 0),
        fault("<g xmlns:a='' xmlns:a=''/>", 0),
        fault("<g><v k='' k=''/></g>", 3),
        sound("<g k='' K=''/>"),
        sound("<g k='' kk='' kkk=''/>"),
        sound("<g a:k='' b:k='' xmlns:a='u' xmlns:b='u'/>"),
        sound("<g k='k' l='k'/>"),
        sound("<g k=''><v k=''/><v k=''/></g>"),
    ]
}

/// Inside an element, with many bytes behind it.
fn far(item: &str) -> String {
    format!("<g>{item}{}</g>", " ".repeat(80))
}

/// What can be read several bytes at a time only where enough of them are left.
fn far_from_the_end() -> Vec<Named> {
    vec![
        fault(far("<v k='' k=''/>"), 3),
        fault(far("<v k=\"1\" k='2'></v>"), 3),
        fault(far("<v k='' l='' m='' l=''/>"), 3),
        fault(far("<v abcdefgh='' abcdefgh=''/>"), 3),
        fault(far("<v abcdefghi='' l='' abcdefghi=''/>"), 3),
        sound(far("<v k='' l=''/>")),
        sound(far("<v k='' kk=''></v>")),
        sound(far("<v abcdefghi='' abcdefghj=''/>")),
        sound(far("<v k = '' l='&lt;' m='\u{e9}'/>")),
        sound(far("<v\n k='>'\tl='/>' ></v >")),
        sound(far("<v\u{e9}w k=''></v\u{e9}w>")),
        fault(far("<v k=''l=''/>"), 3),
        fault(far("<v k='<'/>"), 3),
        fault(far("<v k='&'/>"), 3),
        fault(far("<v k=''"), 3),
        fault(far("<v k/>"), 3),
        fault(far("<v k=1/>"), 3),
        fault(far("<v 1=''/>"), 3),
        fault(far("<v></vw>"), 6),
        fault(far("<vw></v>"), 7),
        fault(far("<vw></vx>"), 7),
        sound(far("<v><bv></bv></v>")),
        sound(far("<v><bv/></v>")),
        sound(far("<abcdefgh></abcdefgh>")),
        fault(far("<abcdefgh></abcdefgi>"), 13),
        sound(far("<abcdefghi></abcdefghi>")),
        fault(far("<abcdefghi></abcdefghj>"), 14),
        sound(far("<v k='\u{a7}\u{fc}\u{a6}' l=\"\u{a2}\u{fc}\u{a6}\"/>")),
        sound(far("\u{fc}\u{a6}\u{740}")),
        sound(far("]")),
        sound(far("x]] >y]>")),
        fault(far("x]]>"), 3),
        sound(far("0123456789abcdef]]")),
        fault(far("0123456789abcdef]]>"), 3),
    ]
}
