// The declaration: its parts in their order, quotes, blanks, and the shapes of its values. Where it may stand is in markup.rs (targets);
// which encodings it may name in encodings.rs.

use super::{fault, kept, Named};

pub fn all() -> Vec<Named> {
    let mut cases: Vec<Named> = SOUND.iter().map(|parts| declared(parts)).collect();
    cases.extend(BAD.iter().map(|parts| fault(format!("<?xml{parts}?><g/>"), 0)));
    cases.extend(ends());
    cases
}

fn declared(parts: &str) -> Named {
    kept("", format!("<?xml{parts}?><g k='1'/>"), "<g></g>", 0)
}

/// What stands between `<?xml` and `?>`.
const SOUND: &[&str] = &[
    " version='1.0'",
    " version=\"1.0\"",
    " version='1.1'",
    " version='1.10'",
    " version='1.0000000000000000000000009'",
    " version='1.0' ",
    " version='1.0'\n\t\r ",
    "\tversion='1.0'",
    "\n\nversion\t=\r'1.0'",
    "  version = \"1.0\"",
    " version='1.0' encoding='UTF-8'",
    " version='1.0' encoding=\"utf-8\"",
    " version=\"1.0\" encoding='Utf-8'",
    " version='1.0'\nencoding\n=\n'uTf-8' ",
    " version='1.0' standalone='yes'",
    " version='1.0' standalone='no'",
    " version='1.0' standalone = \"yes\" ",
    " version='1.0' encoding='UTF-8' standalone='no'",
    " version=\"1.0\"  encoding = \"UTF-8\"\tstandalone\n=\n'yes'\n",
];

/// Each is no XMLDecl.
const BAD: &[&str] = &[
    " ",
    " version",
    " version=",
    " version=1.0",
    " version=''",
    " version='1'",
    " version='1.'",
    " version='.0'",
    " version='1.a'",
    " version='1.0a'",
    " version='1.0.0'",
    " version='2.0'",
    " version='11.0'",
    " version='01.0'",
    " version=' 1.0'",
    " version='1.0 '",
    " version='1 .0'",
    " version='1.0\"",
    " version=\"1.0'",
    " version='1.0",
    " version='&#49;.0'",
    " version '1.0'",
    " version=='1.0'",
    " Version='1.0'",
    " VERSION='1.0'",
    " version='1.0' version='1.0'",
    " encoding='UTF-8'",
    " encoding='UTF-8' version='1.0'",
    " standalone='yes'",
    " standalone='yes' version='1.0'",
    " version='1.0' standalone='yes' encoding='UTF-8'",
    " version='1.0'encoding='UTF-8'",
    " version='1.0'standalone='yes'",
    " version='1.0' encoding='UTF-8'standalone='yes'",
    " version='1.0' encoding=''",
    " version='1.0' encoding='1a'",
    " version='1.0' encoding='-a'",
    " version='1.0' encoding='_a'",
    " version='1.0' encoding='.a'",
    " version='1.0' encoding='a b'",
    " version='1.0' encoding=' a'",
    " version='1.0' encoding='a '",
    " version='1.0' encoding='a:b'",
    " version='1.0' encoding='\u{e9}'",
    " version='1.0' encoding='a\u{e9}'",
    " version='1.0' encoding='a\"",
    " version='1.0' encoding=a",
    " version='1.0' encoding",
    " version='1.0' Encoding='a'",
    " version='1.0' encoding='a' encoding='a'",
    " version='1.0' standalone='YES'",
    " version='1.0' standalone='Yes'",
    " version='1.0' standalone='yes '",
    " version='1.0' standalone=' no'",
    " version='1.0' standalone=''",
    " version='1.0' standalone='true'",
    " version='1.0' standalone='yesno'",
    " version='1.0' standalone='yes\"",
    " version='1.0' standalone=yes",
    " version='1.0' standalone",
    " version='1.0' standalone='yes' standalone='yes'",
    " version='1.0' Standalone='yes'",
    " version='1.0' a='b'",
    " version='1.0' ?",
    " version='1.0'?",
    " version='1.0' <!---->",
    " version='1.0',",
    "\u{a0}version='1.0'",
];

fn ends() -> Vec<Named> {
    vec![
        fault("<?xml version='1.0'", 0),
        fault("<?xml version='1.0' ", 0),
        fault("<?xml version='1.0'?", 0),
        fault("<?xml version='1.0'><g/>", 0),
        fault("<?xml version='1.0'/><g/>", 0),
        fault("<?xml version='1.0'? ><g/>", 0),
        fault("<?xml ", 0),
        fault("<?xml", 0),
        fault("<?xm", 0),
        fault("<? xml version='1.0'?><g/>", 0),
        fault("<?xml version='1.0'?>", 21),
        fault("<?xml version='1.0'?><?xml version='1.0'?><g/>", 21),
        kept("", "<?xml version='1.0'?>\n<!--a-->\n<g/>", "<g></g>", 0),
        kept("/g #\n", "\u{feff}<?xml version='1.0'?><g>t</g>\n", "<g>t</g>", 1),
    ]
}
