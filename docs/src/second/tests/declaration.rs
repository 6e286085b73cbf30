//! Corner cases of the productions for the declaration: sound ones, then broken versions, encodings and standalones.
//! Every broken one is 7 at the document's front. Encodings of the right shape are in `encoding`.

use super::{fault, sound};

#[test]
fn sound_declarations() {
    for inside in [
        " version='1.0'",
        " version=\"1.0\"",
        "\n\tversion\r=\n'1.1' ",
        " version='1.00000000000000000009'",
        " version='1.0' encoding='UTF-8'",
        " version='1.0' standalone='yes'",
        " version='1.0' standalone = \"no\" ",
        " version='1.0'\nencoding='utf-8'\tstandalone='no'\n",
    ] {
        sound(format!("<?xml{inside}?><g/>"));
        fault(format!("<g/><?xml{inside}?>"), 7, 4);
    }
}

#[test]
fn broken_versions() {
    for inside in [
        " ",
        " version",
        " version=1.0",
        " version=''",
        " version='1.'",
        " version='1'",
        " version='2.0'",
        " version='01.0'",
        " version='1.0a'",
        " version=' 1.0'",
        " version='1.0\"",
        " Version='1.0'",
        " version='1.0' version='1.0'",
        " version='1.0'?",
        " version='1.0' x",
    ] {
        fault(format!("<?xml{inside}?><g/>"), 7, 0);
    }
    fault("<?xml version='1.0'><g/>", 7, 0);
    fault("<?xml version='1.0' ? ><g/>", 7, 0);
    fault("<?xml version='1.0'", 7, 0);
}

#[test]
fn broken_encodings_and_standalones() {
    for inside in [
        " encoding='UTF-8'",
        " version='1.0'encoding='UTF-8'",
        " version='1.0' encoding=''",
        " version='1.0' encoding='8'",
        " version='1.0' encoding='-x'",
        " version='1.0' encoding='UTF 8'",
        " version='1.0' encoding='\u{E9}'",
        " version='1.0' encoding='UTF-8\"",
        " version='1.0' encoding='UTF-8'standalone='no'",
        " version='1.0' standalone='no' encoding='UTF-8'",
        " version='1.0' standalone='YES'",
        " version='1.0' standalone='maybe'",
        " version='1.0' standalone='yesno'",
        " version='1.0' standalone=''",
        " encoding='UTF-8' version='1.0'",
    ] {
        fault(format!("<?xml{inside}?><g/>"), 7, 0);
    }
}
