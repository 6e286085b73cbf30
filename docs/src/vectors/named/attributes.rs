// Document 02, Q-4, the list: "The last step of a line, and only the last, may carry one such test, before the space and #", with the
// readings. Which elements pass is in passing.rs, what their values mean in values.rs.

use super::{bad_list as bad, kept, large_list as large, refused, sound_list as sound, Named};

pub fn all() -> Vec<Named> {
    let mut cases = tests();
    cases.extend(shapes());
    cases.extend(blanks());
    cases.extend(earlier());
    cases.extend(steps());
    cases.extend(characters());
    cases.extend(bytes());
    cases.extend(names());
    cases.extend(values());
    cases.extend(order());
    cases.extend(mark());
    cases.extend(colons());
    cases
}

fn tests() -> Vec<Named> {
    vec![
        sound("//place[@type=\"village\"]\n"),
        sound("//place[@type=\"village\"] #\n"),
        sound("/g[@k=\"\"]\n"),
        sound("/*[@k=\"\"] #\n"),
        sound("/a//b/*[@xml:lang=\"fr\"]\n"),
        sound("/g[@_=\"_\"]\n/g[@:=\":\"]\n/g[@a-1.b=\"0\"] #\n"),
        sound("/g[@\u{e9}=\"\u{e9}\"]\n"),
        sound("/g[@e\u{301}=\"e\u{301}\"]\n"),
        sound("/g[@\u{10000}=\"\u{10ffff}\"]\n"),
        kept("/g[@k=\"x\"]\n", "<g k='x'/>", "<g k='x'></g>", 1),
        kept("/g[@k=\"x\"] #\n", "<g k='x'/>", "<g k='x'/>", 1),
        kept("/g[@k=\"x\"]\n/g[@k=\"y\"]\n/g[@l=\"z\"]\n", "<g l=\"z\" k=\"y\"/>", "<g l=\"z\" k=\"y\"></g>", 1),
    ]
}

fn shapes() -> Vec<Named> {
    vec![
        bad("/g[]\n"),
        bad("/g[\n"),
        bad("/g]\n"),
        bad("/g[@\n"),
        bad("/g[@]\n"),
        bad("/g[@k\n"),
        bad("/g[@k]\n"),
        bad("/g[@k=\n"),
        bad("/g[@k=]\n"),
        bad("/g[@k=\"\n"),
        bad("/g[@k=\"]\n"),
        bad("/g[@k=\"x\n"),
        bad("/g[@k=\"x]\n"),
        bad("/g[@k=\"x\"\n"),
        bad("/g[@k=\"x\"]"),
        bad("/g[@k=x]\n"),
        bad("/g[@k=x\"]\n"),
        bad("/g[@k='x']\n"),
        bad("/g[@k='x\"]\n"),
        bad("/g[@k=\"x']\n"),
        bad("/g[@k=1]\n"),
        bad("/g[@k\"x\"]\n"),
        bad("/g[@k==\"x\"]\n"),
        bad("/g[@k!=\"x\"]\n"),
        bad("/g[@k:=\"x\"]]\n"),
        bad("/g[k=\"x\"]\n"),
        bad("/g[@=\"x\"]\n"),
        bad("/g[@*=\"x\"]\n"),
        bad("/g[@@k=\"x\"]\n"),
        bad("/g[@1=\"x\"]\n"),
        bad("/g[@-k=\"x\"]\n"),
        bad("/g[@k/=\"x\"]\n"),
        bad("/g[@\u{d7}=\"x\"]\n"),
        bad("/g[\"x\"=@k]\n"),
        bad("/g[1]\n"),
        bad("/g[v]\n"),
        bad("/g[not(@k)]\n"),
        bad("/g[@k=\"x\" and @l=\"y\"]\n"),
        bad("/g[@k=\"x\"][@l=\"y\"]\n"),
        bad("/g[@k=\"x\"][@k=\"x\"] #\n"),
        bad("/g[@k=\"x\"][]\n"),
        bad("/g[[@k=\"x\"]]\n"),
        bad("/g[@k=\"x\"]]\n"),
        bad("/g[@k=\"x\"]g\n"),
        bad("/g[@k=\"x\"]*\n"),
        bad("/g@k=\"x\"\n"),
        bad("/g(@k=\"x\")\n"),
        bad("/g/@k\n"),
        bad("[@k=\"x\"]\n"),
        bad("/[@k=\"x\"]\n"),
        bad("//[@k=\"x\"]\n"),
        bad("/g/[@k=\"x\"]\n"),
        bad("/self::[@k=\"x\"]\n"),
        bad("/descendant-or-self::[@k=\"x\"] #\n"),
    ]
}

fn blanks() -> Vec<Named> {
    vec![
        bad("/g [@k=\"x\"]\n"),
        bad("/g[ @k=\"x\"]\n"),
        bad("/g[@ k=\"x\"]\n"),
        bad("/g[@k =\"x\"]\n"),
        bad("/g[@k= \"x\"]\n"),
        bad("/g[@k=\"x\" ]\n"),
        bad("/g[@k\t=\"x\"]\n"),
        bad("/g[@k=\"x\"] \n"),
        bad("/g[@k=\"x\"]#\n"),
        bad("/g[@k=\"x\"]  #\n"),
        bad("/g[@k=\"x\"] # \n"),
        bad("/g[@k=\"x\"]\r\n"),
        bad("/g[@k=\"x\"] #\r\n"),
        bad("/g #[@k=\"x\"]\n"),
        bad("/g# [@k=\"x\"]\n"),
    ]
}

/// A test on a step that is not the last.
fn earlier() -> Vec<Named> {
    vec![
        bad("/g[@k=\"x\"]/v\n"),
        bad("/g[@k=\"x\"]//v #\n"),
        bad("/g[@k=\"x\"]/self::g\n"),
        bad("//*[@k=\"x\"]/descendant-or-self::*\n"),
        bad("/a/b[@k=\"x\"]/c\n"),
        bad("/g[@k=\"x\"]/v[@k=\"x\"]\n"),
        bad("/g[@k=\"x\"]/\n"),
        bad("/g[@k=\"x\"]/[@l=\"y\"]\n"),
        refused("/g/v[@k=\"x\"]\n/g[@k=\"x\"]/v\n", "<g/>", 2, 2),
    ]
}

/// The last step is of each of the four kinds, with a name and with `*`.
fn steps() -> Vec<Named> {
    let doc = "<g k='x'><g k='y'/></g>";
    vec![
        kept("/g[@k=\"x\"]\n", doc, "<g k='x'></g>", 1),
        kept("/*[@k=\"x\"]\n", doc, "<g k='x'></g>", 1),
        kept("/g[@k=\"y\"]\n", doc, "<g></g>", 0),
        kept("/g/g[@k=\"y\"]\n", doc, "<g><g k='y'></g></g>", 1),
        kept("/g/*[@k=\"x\"]\n", doc, "<g></g>", 0),
        kept("//g[@k=\"x\"] #\n", doc, doc, 1),
        kept("//*[@k=\"y\"] #\n", doc, "<g><g k='y'/></g>", 1),
        kept("/g/self::g[@k=\"x\"]\n", doc, "<g k='x'></g>", 1),
        kept("/g/self::*[@k=\"x\"] #\n", doc, doc, 1),
        kept("/g/self::*[@k=\"y\"] #\n", doc, "<g></g>", 0),
        kept("//g/self::g[@k=\"y\"]\n", doc, "<g><g k='y'></g></g>", 1),
        kept("/self::g[@k=\"x\"]\n", doc, "<g></g>", 0),
        kept("/descendant-or-self::g[@k=\"x\"]\n", doc, "<g k='x'></g>", 1),
        kept("/descendant-or-self::*[@k=\"y\"]\n", doc, "<g><g k='y'></g></g>", 1),
        kept("/g/descendant-or-self::g[@k=\"x\"]\n", doc, "<g k='x'></g>", 1),
        kept("/g/descendant-or-self::*[@k=\"y\"] #\n", doc, "<g><g k='y'/></g>", 1),
        kept("/g/g/descendant-or-self::*[@k=\"x\"]\n", doc, "<g></g>", 0),
    ]
}

/// What a value may hold.
fn characters() -> Vec<Named> {
    vec![
        kept("/g[@k=\"'\"]\n", "<g k=\"'\"/>", "<g k=\"'\"></g>", 1),
        kept("/g[@k=\"]\"]\n", "<g k=']'/>", "<g k=']'></g>", 1),
        kept("/g[@k=\"]]>\"]\n", "<g k=']]>'/>", "<g k=']]>'></g>", 1),
        kept("/g[@k=\"[@k=\"]\n", "<g k='[@k='/>", "<g k='[@k='></g>", 1),
        kept("/g[@k=\"/>\"]\n", "<g k='/>'/>", "<g k='/>'></g>", 1),
        kept("/g[@k=\"//a #\"] #\n", "<g k='//a #'/>", "<g k='//a #'/>", 1),
        kept("/g[@k=\"=\"]\n", "<g k = '=' />", "<g k = '=' ></g>", 1),
        kept("/g[@k=\" \"]\n", "<g k=' '/>", "<g k=' '></g>", 1),
        kept("/g[@k=\"\u{7f}\"]\n", "<g k='\u{7f}'/>", "<g k='\u{7f}'></g>", 1),
        kept("/g[@k=\"\u{85}\"]\n", "<g k='\u{85}'/>", "<g k='\u{85}'></g>", 1),
        kept("/g[@k=\"\u{2028}\"]\n", "<g k='\u{2028}'/>", "<g k='\u{2028}'></g>", 1),
        kept("/g[@k=\"\u{feff}\"]\n", "<g k='\u{feff}'/>", "<g k='\u{feff}'></g>", 1),
        kept("/g[@k=\"\u{d7ff}\u{e000}\u{fffd}\"]\n", "<g k='\u{d7ff}\u{e000}\u{fffd}'/>", "<g k='\u{d7ff}\u{e000}\u{fffd}'></g>", 1),
        kept("/g[@k=\"\u{10000}\u{10ffff}\"]\n", "<g k='\u{10000}\u{10ffff}'/>", "<g k='\u{10000}\u{10ffff}'></g>", 1),
        bad("/g[@k=\"\"\"]\n"),
        bad("/g[@k=\"a\"b\"]\n"),
        bad("/g[@k=\"<\"]\n"),
        bad("/g[@k=\"&\"]\n"),
        bad("/g[@k=\"&amp;\"]\n"),
        bad("/g[@k=\"&#65;\"]\n"),
        bad("/g[@k=\"\t\"]\n"),
        bad("/g[@k=\"\r\"]\n"),
        bad("/g[@k=\"a\nb\"]\n"),
        bad("/g[@k=\"\0\"]\n"),
        bad("/g[@k=\"\u{1f}\"]\n"),
        bad("/g[@k=\"\u{fffe}\"]\n"),
        bad("/g[@k=\"\u{ffff}\"]\n"),
    ]
}

fn bytes() -> Vec<Named> {
    vec![
        bad(b"/g[@k=\"\x80\"]\n"),
        bad(b"/g[@k=\"\xff\"]\n"),
        bad(b"/g[@k=\"\xc3\"]\n"),
        bad(b"/g[@k=\"\xc0\xa0\"]\n"),
        bad(b"/g[@k=\"\xe0\x80\x80\"]\n"),
        bad(b"/g[@k=\"\xed\xa0\x80\"]\n"),
        bad(b"/g[@k=\"\xf0\x90\x80\"]\n"),
        bad(b"/g[@k=\"\xf4\x90\x80\x80\"]\n"),
        bad(b"/g[@k=\"\xe9\"]\n"),
        bad(b"/g[@\xff=\"x\"]\n"),
        bad(b"/g[@k\xc3=\"x\"]\n"),
        bad(b"/g[@k=\"x\"]\xff\n"),
    ]
}

/// Names of 255 and 256 bytes.
fn names() -> Vec<Named> {
    let (n255, n256) = ("k".repeat(255), "k".repeat(256));
    let accents = "\u{e9}".repeat(127) + "k";
    vec![
        kept(format!("/g[@{n255}=\"x\"]\n"), format!("<g {n255}='x'/>"), format!("<g {n255}='x'></g>"), 1),
        kept(format!("/g[@{n255}=\"y\"]\n"), format!("<g {n255}='x'/>"), "<g></g>", 0),
        kept(format!("/g[@{accents}=\"x\"] #\n"), format!("<g {accents}='x'/>"), format!("<g {accents}='x'/>"), 1),
        sound(format!("/{n255}[@{n255}=\"{n255}\"] #\n")),
        large(format!("/g[@{n256}=\"x\"]\n")),
        large(format!("/g[@{}=\"\"] #\n", "\u{e9}".repeat(128))),
        large(format!("/g[@{}=\"\"]\n", "\u{10000}".repeat(64))),
        large(format!("/{n256}[@k=\"x\"]\n")),
        bad(format!("/g[@{n256}]\n")),
        bad(format!("/g[@{n256}='x']\n")),
        bad(format!("/g[@{n256}=\"<\"]\n")),
        bad(format!("/g[@{n256}=\"x\"]/v\n")),
        bad(format!("/{n256}[@k=\"x\"]/v\n")),
    ]
}

/// Values of 255 and 256 bytes, and a character of several bytes that reaches over the edge. A bad character comes first.
fn values() -> Vec<Named> {
    let (v254, v255, v256) = ("v".repeat(254), "v".repeat(255), "v".repeat(256));
    let accents = "\u{e9}".repeat(127) + "v";
    let wide = "\u{10000}".repeat(63) + "\u{3001}";
    let referred = "&#118;".repeat(255);
    vec![
        kept(format!("/g[@k=\"{v255}\"]\n"), format!("<g k='{v255}'/>"), format!("<g k='{v255}'></g>"), 1),
        kept(format!("/g[@k=\"{v254}\"]\n"), format!("<g k='{v255}'/>"), "<g></g>", 0),
        kept(format!("/g[@k=\"{v255}\"]\n"), format!("<g k='{v256}'/>"), "<g></g>", 0),
        kept(format!("/g[@k=\"{v255}\"]\n"), format!("<g k='{v254}'/>"), "<g></g>", 0),
        kept(format!("/g[@k=\"{accents}\"] #\n"), format!("<g k='{accents}'/>"), format!("<g k='{accents}'/>"), 1),
        kept(format!("/g[@k=\"{wide}\"] #\n"), format!("<g k='{wide}'/>"), format!("<g k='{wide}'/>"), 1),
        // 255 bytes that stand in the document in 1,530.
        kept(format!("/g[@k=\"{v255}\"]\n"), format!("<g k='{referred}'/>"), format!("<g k='{referred}'></g>"), 1),
        kept(format!("/g[@k=\"{v254}\"]\n"), format!("<g k='{referred}'/>"), "<g></g>", 0),
        // Values that are 256 bytes longer than the test's.
        kept("/g[@k=\"\"]\n", format!("<g k='{v256}'/>"), "<g></g>", 0),
        kept("/g[@k=\"v\"]\n", format!("<g k='{v256}v'/>"), "<g></g>", 0),
        kept(format!("/g[@k=\"{v255}\"]\n"), format!("<g k='{v255}{v256}'/>"), "<g></g>", 0),
        large(format!("/g[@k=\"{v256}\"]\n")),
        large(format!("/g[@k=\"{v256}\"] #\n")),
        large(format!("/g[@k=\"{v254}\u{e9}\"]\n")),
        large(format!("/g[@k=\"{}\"]\n", "\u{e9}".repeat(128))),
        large(format!("/g[@k=\"{}\"]\n", "\u{10000}".repeat(64))),
        large(format!("/g[@k=\"{}\"]\n", "v".repeat(8_000))),
        bad(format!("/g[@k=\"{v256}<\"]\n")),
        bad(format!("/g[@k=\"&{v256}\"]\n")),
        bad(format!("/g[@k=\"{v255}\t\"]\n")),
        bad(format!("/g[@k=\"{v255}\u{ffff}\"]\n")),
        bad(format!("/g[@k=\"{v256}\n")),
        bad(format!("/g[@k=\"{v256}\"\n")),
        bad(format!("/g[@k=\"{v256}\"]/v\n")),
        bad(format!("/g[@k=\"{v256}\"]  #\n")),
        bad([b"/g[@k=\"", v254.as_bytes(), b"\xc3\"]\n"].concat()),
        bad([b"/g[@k=\"", v256.as_bytes(), b"\xff\"]\n"].concat()),
    ]
}

fn order() -> Vec<Named> {
    let v256 = "v".repeat(256);
    let line = format!("/g[@k=\"{}\"]\n", "v".repeat(246));
    vec![
        sound("/a".repeat(16) + "[@k=\"x\"]\n"),
        large("/a".repeat(17) + "[@k=\"x\"]\n"),
        bad("/a".repeat(17) + "[@k='x']\n"),
        bad("/a".repeat(17) + "[@k=\"x\"]/a\n"),
        refused(format!("/g[@k=\"{v256}\"]\n/g[@k]\n"), "<g/>", 3, 1),
        refused(format!("/g[@k]\n/g[@k=\"{v256}\"]\n"), "<g/>", 2, 1),
        refused(format!("/g[@k=\"x\"]\n/g\n/g[@k=\"{v256}\"] #\n"), "<g/>", 3, 3),
        sound("/g[@k=\"x\"]\n".repeat(32)),
        refused("/g[@k=\"x\"]\n".repeat(32) + "/g[@k]\n", "<g/>", 3, 33),
        // 256 bytes a line, the test among them.
        sound(line.repeat(32)),
        refused(format!("{}/", line.repeat(32)), "<g/>", 1, 0),
        refused("/g[@k]\n", b"\xff", 2, 1).room(0),
        refused(format!("/g[@k=\"{v256}\"]\n"), "", 3, 1).room(0),
    ]
}

/// ` #` is the mark behind the test alone; inside the value it is value.
fn mark() -> Vec<Named> {
    let doc = "<g k=' #'><v/></g>";
    vec![
        kept("/g[@k=\" #\"]\n", doc, "<g k=' #'></g>", 1),
        kept("/g[@k=\" #\"] #\n", doc, doc, 1),
        kept("/g[@k=\"\"] #\n", doc, "<g></g>", 0),
        kept("/g[@k=\"#\"]\n", doc, "<g></g>", 0),
        kept("/g[@k=\"] #\"]\n", "<g k='] #'><v/></g>", "<g k='] #'></g>", 1),
        bad("/g[@k=\"x #\n"),
        bad("/g[@k=\"x #\"\n"),
        bad("/g[@k=\"x\" #]\n"),
        bad("/g[@k #=\"x\"]\n"),
    ]
}

/// Two colons side by side are sound in an attribute's name, and in a value, and not in the name before it.
fn colons() -> Vec<Named> {
    vec![
        kept("/g[@a::b=\"x\"]\n", "<g a::b='x'/>", "<g a::b='x'></g>", 1),
        kept("/g[@::=\"::\"] #\n", "<g ::='::'/>", "<g ::='::'/>", 1),
        kept("/g[@self::k=\"x\"]\n", "<g k='x'/>", "<g></g>", 0),
        kept("/g[@attribute::k=\"x\"]\n", "<g k='x'/>", "<g></g>", 0),
        large(format!("/g[@a::{}=\"x\"]\n", "b".repeat(253))),
        bad("/a::b[@k=\"x\"]\n"),
        bad("//self::g[@k=\"x\"]\n"),
        bad("/g[attribute::k=\"x\"]\n"),
    ]
}
