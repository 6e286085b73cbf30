// Document 02, Q-6, the list: "Add `/self::` and `/descendant-or-self::` before a test", and "any other name test with two colons side by
// side is 2", with the readings R-18 to R-21. What these steps select is in same_place.rs.

use super::{bad_list as bad, kept, large_list as large, refused, sound_list as sound, Named};

pub fn all() -> Vec<Named> {
    let mut cases = axes();
    cases.extend(one_slash());
    cases.extend(tests());
    cases.extend(plain_names());
    cases.extend(colons());
    cases.extend(names());
    cases.extend(steps());
    cases.extend(order());
    cases.extend(documents());
    cases
}

fn axes() -> Vec<Named> {
    vec![
        sound("/self::p\n"),
        sound("/self::p #\n"),
        sound("/self::*\n"),
        sound("/descendant-or-self::p\n"),
        sound("/g/descendant-or-self::p #\n"),
        sound("/g//p/self::*/descendant-or-self::*/q\n"),
        sound("/self::self\n"),
        sound("/g/self::descendant-or-self\n"),
        sound("/g/self::\u{e9}\n"),
        kept("/g/self::g\n", "<g/>", "<g></g>", 1),
        kept("/g/self::* #\n", "<g/>", "<g/>", 1),
        kept("/descendant-or-self::g\n", "<g/>", "<g></g>", 1),
        kept("/descendant-or-self::* #\n", "<g/>", "<g/>", 1),
        kept("/v\n/g/self::g\n/self::g #\n", "<g/>", "<g></g>", 1),
    ]
}

fn one_slash() -> Vec<Named> {
    vec![
        bad("//self::p\n"),
        bad("//self::*\n"),
        bad("//descendant-or-self::p\n"),
        bad("//descendant-or-self::* #\n"),
        bad("/g//self::g\n"),
        bad("///self::p\n"),
        bad("self::p\n"),
        bad("/ self::p\n"),
    ]
}

/// What follows an axis is a name test of its own.
fn tests() -> Vec<Named> {
    vec![
        sound("/self:::p\n"),
        sound("/self:::\n"),
        sound("/descendant-or-self:::p\n"),
        sound("/descendant-or-self::: #\n"),
        sound("/self:::a:b\n"),
        bad("/self::\n"),
        bad("/self:: #\n"),
        bad("/self::"),
        bad("/self::/p\n"),
        bad("/self:: p\n"),
        bad("/self::-p\n"),
        bad("/self::**\n"),
        bad("/self:::*\n"),
        bad("/self::.\n"),
        bad("/self::node()\n"),
        bad("/self::::p\n"),
        bad("/self::::\n"),
        bad("/self::a::b\n"),
        bad("/self::self::p\n"),
        bad("/self::descendant-or-self::p\n"),
        bad("/descendant-or-self::\n"),
        bad("/descendant-or-self::/p\n"),
        bad("/descendant-or-self::::p\n"),
        bad("/descendant-or-self::self::p\n"),
        bad("/g/self::p::\n"),
        bad(b"/self::\xff\n"),
        bad(b"/self::\xc3\n"),
    ]
}

/// With one colon, or none, it is a name.
fn plain_names() -> Vec<Named> {
    let doc = "<g><self/><self:/><self:p/><descendant-or-self:p/><p/></g>";
    vec![
        sound("/self\n"),
        sound("/self:\n"),
        sound("/self:p\n"),
        sound("/descendant-or-self\n"),
        sound("/child:p\n"),
        sound("/a:b:c\n"),
        kept("//self\n", doc, "<g><self></self></g>", 1),
        kept("//self:\n", doc, "<g><self:></self:></g>", 1),
        kept("/g/self:p\n", doc, "<g><self:p></self:p></g>", 1),
        kept("/g/descendant-or-self:p\n", doc, "<g><descendant-or-self:p></descendant-or-self:p></g>", 1),
        kept("/g/*/self::self\n", doc, "<g><self></self></g>", 1),
        kept("/g/*/self::self:p\n", doc, "<g><self:p></self:p></g>", 1),
    ]
}

fn colons() -> Vec<Named> {
    vec![
        bad("/a::b\n"),
        bad("/a:::b\n"),
        bad("/::\n"),
        bad("/:::p\n"),
        bad("/::p\n"),
        bad("/p::\n"),
        bad("//a::b\n"),
        bad("//p:: #\n"),
        bad("/g/a::b/c\n"),
        bad("/child::p\n"),
        bad("/child::g\n"),
        bad("/child::*\n"),
        bad("/descendant::p\n"),
        bad("/parent::*\n"),
        bad("/attribute::k\n"),
        bad("/Self::p\n"),
        bad("/descendant-or-Self::p\n"),
        bad("/or-self::p\n"),
        bad("/xself::p\n"),
        bad("/\u{e9}::p\n"),
    ]
}

/// 255 bytes, without the axis. Two colons side by side come first, however long the name.
fn names() -> Vec<Named> {
    let (n254, n255, n256) = ("v".repeat(254), "v".repeat(255), "v".repeat(256));
    vec![
        sound(format!("/self::{n255}\n")),
        sound(format!("/self:::{n254} #\n")),
        sound(format!("/descendant-or-self::{n255}\n")),
        sound(format!("/g/descendant-or-self:::{n254}\n")),
        sound(format!("/self::{n255}/descendant-or-self::{n255}/{n255}\n")),
        kept(format!("/*/self::{n255}\n"), format!("<{n255}/>"), format!("<{n255}></{n255}>"), 1),
        kept(format!("/g/descendant-or-self::{n255}\n"), format!("<g><{n255}/></g>"), format!("<g><{n255}></{n255}></g>"), 1),
        large(format!("/self::{n256}\n")),
        large(format!("/self:::{n255}\n")),
        large(format!("/descendant-or-self::{n256} #\n")),
        large(format!("/g/descendant-or-self:::{n255}\n")),
        large(format!("/g/self::{}\n", "\u{e9}".repeat(128))),
        sound(format!("/self:{}\n", "v".repeat(250))),
        large(format!("/self:{}\n", "v".repeat(251))),
        bad(format!("/{n254}::\n")),
        bad(format!("/{n255}::\n")),
        bad(format!("/{n256}::\n")),
        bad(format!("/::{n256}\n")),
        bad(format!("/{n255}::{n255}\n")),
        bad(format!("/self::{n256}::\n")),
        bad(format!("/descendant-or-self::::{n256}\n")),
        bad(format!("/{n256}/self::\n")),
        bad(format!("/{n256}//self::p\n")),
    ]
}

fn steps() -> Vec<Named> {
    vec![
        kept(format!("/g{}\n", "/self::g".repeat(15)), "<g/>", "<g></g>", 1),
        kept(format!("/g{} #\n", "/self::*".repeat(15)), "<g/>", "<g/>", 1),
        large(format!("/g{}\n", "/self::g".repeat(16))),
        sound(format!("{}\n", "/self::*".repeat(16))),
        large(format!("{}\n", "/self::*".repeat(17))),
        kept(format!("{}\n", "/descendant-or-self::g".repeat(16)), "<g/>", "<g></g>", 1),
        large(format!("{} #\n", "/descendant-or-self::g".repeat(17))),
        bad(format!("{}/a::b\n", "/self::*".repeat(17))),
        bad(format!("/child::a{}\n", "/a".repeat(17))),
        bad(format!("{}/self::\n", "/a".repeat(17))),
    ]
}

fn order() -> Vec<Named> {
    let full = "/self::v\n".repeat(32);
    let line = format!("/self::{}\n", "v".repeat(248));
    vec![
        refused("/g/self::g\n/a::b\n", "<g/>", 2, 2),
        refused(format!("/{}\n/a::b\n", "v".repeat(256)), "<g/>", 3, 1),
        refused(format!("/a::b\n/{}\n", "v".repeat(256)), "<g/>", 2, 1),
        sound(&full),
        refused(format!("{full}/a::b\n"), "<g/>", 3, 33),
        refused("//self::p\n", b"\xff", 2, 1).room(0),
        refused("/child::p\n", "", 2, 1).room(0),
        // 256 bytes a line, the axis among them.
        sound(line.repeat(32)),
        refused(format!("{}x", line.repeat(32)), "<g/>", 1, 0),
        refused(format!("/::{}\n", "v".repeat(8_190)), "<g/>", 1, 0),
    ]
}

/// Documents keep names with two colons side by side, and only `*` reaches them.
fn documents() -> Vec<Named> {
    let doc = "<g><a::b k::='1'/><self::p><:p/></self::p><p/><:/></g>";
    vec![
        kept("/g/*\n", doc, "<g><a::b k::='1'></a::b><self::p></self::p><p></p><:></:></g>", 4),
        kept("//*/self::*\n", doc, "<g><a::b k::='1'></a::b><self::p><:p></:p></self::p><p></p><:></:></g>", 6),
        kept("/g/* #\n", doc, doc, 4),
        kept("/g/self::p\n", doc, "<g></g>", 0),
        kept("/g/*/self::p\n", doc, "<g><p></p></g>", 1),
        kept("//p\n", doc, "<g><p></p></g>", 1),
        kept("//:p\n", doc, "<g><self::p><:p></:p></self::p></g>", 1),
        kept("/g/*/*/self:::p\n", doc, "<g><self::p><:p></:p></self::p></g>", 1),
        kept("/descendant-or-self:::p #\n", doc, "<g><self::p><:p/></self::p></g>", 1),
        kept("/descendant-or-self:::\n", doc, "<g><:></:></g>", 1),
        kept("//a:b\n", doc, "<g></g>", 0),
        kept("/*\n", "<a::b/>", "<a::b></a::b>", 1),
        kept("/*/self::*\n", "<self::p/>", "<self::p></self::p>", 1),
        kept("/self::p\n", "<self::p/>", "<self::p></self::p>", 0),
        kept("/self:::p\n", "<:p/>", "<:p></:p>", 0),
        kept("/*/self:::p\n", "<:p/>", "<:p></:p>", 1),
        kept("/* #\n", "<::></::>", "<::></::>", 1),
        refused("/*\n", "<a::b></a:b>", 7, 6),
    ]
}
