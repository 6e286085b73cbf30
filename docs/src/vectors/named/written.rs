// What is written: tags of selected and of chain elements, entries as they came, what is dropped, and the rooms.

use super::{kept, refused, Named};

pub fn all() -> Vec<Named> {
    let mut cases = plain();
    cases.extend(chains());
    cases.extend(entries());
    cases.extend(rooms("", "<g/>", "<g></g>", 0));
    cases.extend(rooms("//v\n", "<g><p><v/></p></g>", "<g><p><v></v></p></g>", 1));
    cases.extend(rooms("//n #\n", "<g><v k='1'><n>Aar</n></v></g>", "<g><v><n>Aar</n></v></g>", 1));
    cases.extend(rooms("/g #\n", " <g>\n<v/></g >\n", "<g>\n<v/></g >", 1));
    cases.extend(rooms("/g #\n", "\u{feff}<g/>", "<g/>", 1));
    cases.extend(rooms("//v\n", "<\u{e9}><v \u{e9}='\u{e9}'/></\u{e9}>", "<\u{e9}><v \u{e9}='\u{e9}'></v></\u{e9}>", 1));
    cases.extend(rooms("/g\n//v #\n", "<g k='1' >t<v/>u<v ></v\n></g>", "<g k='1' ><v/><v ></v\n></g>", 3));
    cases
}

/// The same in no room, one byte, one less, the cut's length, one more, and much more.
fn rooms(list: &str, doc: &str, cut: &str, selected: u64) -> Vec<Named> {
    let length = cut.len();
    let mut cases: Vec<Named> = [0, 1, length - 1].iter().map(|room| refused(list, doc, 9, length).room(*room)).collect();
    cases.extend([length, length + 1, 1_000].iter().map(|room| kept(list, doc, cut, selected).room(*room)));
    cases
}

fn plain() -> Vec<Named> {
    vec![
        kept("//v\n", "<g><v k=\"1\"/></g>", "<g><v k=\"1\"></v></g>", 1),
        kept("//v\n", "<g><v k=\"1\" /></g>", "<g><v k=\"1\" ></v></g>", 1),
        kept("//v\n", "<g><v /></g>", "<g><v ></v></g>", 1),
        kept("//v\n", "<g><v\n\t></v></g>", "<g><v\n\t></v></g>", 1),
        kept("//v\n", "<g><v k = '1'\tl=\"2\" ></v\n></g>", "<g><v k = '1'\tl=\"2\" ></v></g>", 1),
        kept("//v\n", "<g><v k='/>'/></g>", "<g><v k='/>'></v></g>", 1),
        kept("//v\n", "<g><v k='>'></v></g>", "<g><v k='>'></v></g>", 1),
        kept("//v\n", "<g><v k='/'></v></g>", "<g><v k='/'></v></g>", 1),
        kept("//v\n", "<g><v k='&lt;&#65;'/></g>", "<g><v k='&lt;&#65;'></v></g>", 1),
        kept("//v\n", "<g><v>Aar<!--a--><?a?><![CDATA[b]]>&amp;</v></g>", "<g><v></v></g>", 1),
        kept("//v\n", "<g><v><n>Aar</n></v></g>", "<g><v></v></g>", 1),
        kept("//v\n", "<g><v>a<v>b</v>c</v></g>", "<g><v><v></v></v></g>", 2),
        kept("/g\n", "<?xml version='1.0'?><!--a--><g k='1'>Aar</g><!--b-->", "<g k='1'></g>", 1),
        kept("/g\n", "<g k='1'\n/>", "<g k='1'\n></g>", 1),
    ]
}

fn chains() -> Vec<Named> {
    vec![
        kept("", "<g k='1'>Aar<v/></g>", "<g></g>", 0),
        kept("", "<g\n/>", "<g></g>", 0),
        kept("", "<g ></g >", "<g></g>", 0),
        kept("//v\n", "<g k='1'><p l='2'>t<v/>u</p>w</g>", "<g><p><v></v></p></g>", 1),
        kept("//v\n", "<g ><p\n><v/></p ></g\t>", "<g><p><v></v></p></g>", 1),
        kept("//v\n", "<g><p/><p></p><p><n/></p></g>", "<g></g>", 0),
        kept("//v\n", "<g><p><n/></p><p><v/></p><p><n/></p></g>", "<g><p><v></v></p></g>", 1),
        kept("//v\n", "<g><p><q><v/></q><q/><q><v/></q></p></g>", "<g><p><q><v></v></q><q><v></v></q></p></g>", 2),
        kept("//v\n", "<g><p><q><r/></q></p><p><q><r><v/></r></q></p></g>", "<g><p><q><r><v></v></r></q></p></g>", 1),
        kept("//v\n//q\n", "<g><p k='1'><q l='2'><r m='3'><v/></r></q></p></g>", "<g><p><q l='2'><r><v></v></r></q></p></g>", 2),
    ]
}

fn entries() -> Vec<Named> {
    let entry = "<v k = '1' >\n<n /><!--a--><?a b?><![CDATA[<]]>&amp;&#65;</v\n>";
    vec![
        kept("//v #\n", format!("<g>s{entry}t</g>"), format!("<g>{entry}</g>"), 1),
        kept("//v #\n//n\n", format!("<g>s{entry}t</g>"), format!("<g>{entry}</g>"), 2),
        kept("//v #\n", format!("<g><p k='1'>{entry}</p>{entry}</g>"), format!("<g><p>{entry}</p>{entry}</g>"), 2),
        kept("/g #\n", format!(" <!--a--><g>{entry}</g >\n"), format!("<g>{entry}</g >"), 1),
        kept("//v #\n", "<g><v/></g>", "<g><v/></g>", 1),
        kept("//v #\n", "<g><v k='1' /></g>", "<g><v k='1' /></g>", 1),
        kept("//v #\n", "<g><v></v ></g>", "<g><v></v ></g>", 1),
        kept("//v #\n", "<g><v>a<v>b</v >c</v></g>", "<g><v>a<v>b</v >c</v></g>", 2),
        kept("//v #\n", "<g><v/>a<v/>b<n/></g>", "<g><v/><v/></g>", 2),
        kept("//n #\n//v\n", "<g><v k='1'>a<n>b</n>c</v>d</g>", "<g><v k='1'><n>b</n></v></g>", 2),
        kept("//v #\n/g/v/n/v\n", "<g><v><n><v/></n></v><v/></g>", "<g><v><n><v/></n></v><v/></g>", 3),
        kept("/g/v/v #\n/g/v\n", "<g><v>a<v>b<v>c</v></v></v></g>", "<g><v><v>b<v>c</v></v></v></g>", 2),
    ]
}
