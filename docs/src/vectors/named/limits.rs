// The sizes of the list, each at its limit and one past it: bytes, lines, steps, names; and what is malformed besides.

use super::{kept, refused, Named};

pub fn all() -> Vec<Named> {
    let mut cases = bytes();
    cases.extend(lines());
    cases.extend(steps());
    cases.extend(names());
    cases
}

fn sound(list: impl AsRef<[u8]>) -> Named {
    kept(list, "<g/>", "<g></g>", 0)
}

fn malformed(list: impl AsRef<[u8]>, line: usize) -> Named {
    refused(list, "<g/>", 2, line)
}

fn large(list: impl AsRef<[u8]>, line: usize) -> Named {
    refused(list, "<g/>", 3, line)
}

fn over(list: impl AsRef<[u8]>) -> Named {
    refused(list, "<g/>", 1, 0)
}

/// 31 lines of 256 bytes each, so that one of 256 more makes 8,192.
fn bytes() -> Vec<Named> {
    let most = format!("/{}\n", "v".repeat(254)).repeat(31);
    let (short, name, long) = ("v".repeat(251), "v".repeat(254), "v".repeat(255));
    vec![
        sound(format!("{most}/{name}\n")),
        sound(format!("{most}/{}\n", "v".repeat(253))),
        sound(format!("{most}//*/{short}\n")),
        kept(format!("{most}//*/{short}\n"), format!("<g><{short}/></g>"), format!("<g><{short}></{short}></g>"), 1),
        over(format!("{most}/{long}\n")),
        over(format!("{most}/{name}\n\n")),
        over(format!("{most}/{name}\n/")),
        malformed(format!("{most}/{long}"), 32),
        malformed(format!("{most}/{} #", "v".repeat(253)), 32),
        over(format!("{most}/{} #\n", "v".repeat(253))),
        malformed("\n".repeat(8_192), 1),
        over("\n".repeat(8_193)),
        malformed("v".repeat(8_192), 1),
        over("v".repeat(8_193)),
        malformed([0xFF; 8_192], 1),
        over([0xFF; 8_193]),
        large("/v\n".repeat(2_730), 33),
        over("/v\n".repeat(2_731)),
        large(format!("/{}\n", "v".repeat(8_190)), 1),
        over(format!("/{}\n", "v".repeat(8_191))),
        over("/v".repeat(8_000)),
    ]
}

fn lines() -> Vec<Named> {
    let (some, most) = ("/v\n".repeat(30), "/v\n".repeat(31));
    let all = "/v\n".repeat(32);
    vec![
        sound(&most),
        sound(&all),
        kept(format!("{most}/g\n"), "<g/>", "<g></g>", 1),
        kept(format!("{most}/g #\n"), "<g/>", "<g/>", 1),
        large(format!("{all}/v\n"), 33),
        large(format!("{all}/g #\n/v\n/v\n"), 33),
        large(format!("{all}\n"), 33),
        large(format!("{all}x\n"), 33),
        large(format!("{all}x"), 33),
        large(format!("{all}/v"), 33),
        large(format!("{all}{}\n", "/v".repeat(17)), 33),
        large([all.as_bytes(), b"\xff"].concat(), 33),
        large([all.as_bytes(), b"\0"].concat(), 33),
        malformed(format!("{most}/v"), 32),
        malformed(format!("{most}x\n"), 32),
        malformed(format!("{most}x\n/v\n"), 32),
        malformed(format!("{most}\n\n"), 32),
        malformed(format!("{some}/\n/v\n/v\n/v\n"), 31),
        large(format!("{most}{}\n/v\n", "/v".repeat(17)), 32),
        malformed(format!("x\n{all}"), 1),
    ]
}

fn steps() -> Vec<Named> {
    let (most, over) = ("/v".repeat(16), "/v".repeat(17));
    vec![
        sound(format!("{most}\n")),
        sound(format!("{most} #\n")),
        sound(format!("{}\n", "//v".repeat(16))),
        sound(format!("{} #\n", "//*".repeat(16))),
        large(format!("{over}\n"), 1),
        large(format!("{over} #\n"), 1),
        large(format!("{}\n", "//v".repeat(17)), 1),
        large(format!("{}\n", "/*".repeat(17)), 1),
        large(format!("{}\n", "//*".repeat(1_000)), 1),
        large(format!("/g\n{most}\n{over}\n"), 3),
        large(format!("{over}\nx\n"), 1),
        malformed(format!("x\n{over}\n"), 1),
        malformed(&over, 1),
        malformed(format!("{over} \n"), 1),
        malformed(format!("{over}/\n"), 1),
        malformed(format!("{over}//\n"), 1),
        malformed(format!("{over}#\n"), 1),
        malformed(format!("{over}  #\n"), 1),
        malformed(format!("{over}\r\n"), 1),
        malformed(format!("/-{over}\n"), 1),
        malformed(format!("{}/1\n", "/v".repeat(40)), 1),
        malformed([over.as_bytes(), b"/\xff\n"].concat(), 1),
        malformed(format!("/g\n{over}"), 2),
    ]
}

fn names() -> Vec<Named> {
    let (n255, n256) = ("v".repeat(255), "v".repeat(256));
    vec![
        sound(format!("/{n255}\n")),
        sound(format!("//{n255} #\n")),
        sound(format!("/{n255}/{n255}//{n255}\n")),
        sound(format!("/v{}\n", "\u{e9}".repeat(127))),
        sound(format!("/{}v\n", "\u{e9}".repeat(127))),
        sound(format!("/{}\n", "\u{3001}".repeat(85))),
        sound(format!("/{}vvv\n", "\u{10000}".repeat(63))),
        sound(format!("/vvv{}\n", "\u{10000}".repeat(63))),
        kept(format!("//{n255}\n"), format!("<g><{n255}/></g>"), format!("<g><{n255}></{n255}></g>"), 1),
        kept(format!("//{n255}\n"), format!("<g><{0}w/></g>", "v".repeat(254)), "<g></g>", 0),
        large(format!("/{n256}\n"), 1),
        large(format!("//v\n/v/{n256} #\n"), 2),
        large(format!("/{}\n", "\u{e9}".repeat(128)), 1),
        large(format!("/{}v\n", "\u{3001}".repeat(85)), 1),
        large(format!("/{}\n", "\u{10000}".repeat(64)), 1),
        large(format!("/{}vv\u{e9}\n", "\u{10000}".repeat(63)), 1),
        large(format!("/{n256}{}\n", "/v".repeat(17)), 1),
        large(format!("/{n256}\n/-\n"), 1),
        malformed(format!("/{n256}*\n"), 1),
        malformed(format!("/{n256}"), 1),
        malformed(format!("/{n256} \n"), 1),
        malformed(format!("/{n256}/-\n"), 1),
        malformed(format!("/{n255}\u{d7}\n"), 1),
        malformed([b"/", n255.as_bytes(), b"\xc3\n"].concat(), 1),
        malformed([b"/", n256.as_bytes(), b"\x80\n"].concat(), 1),
        malformed([b"/", &n255.as_bytes()[1..], b"\xc3"].concat(), 1),
    ]
}
