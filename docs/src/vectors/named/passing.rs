// Which elements pass a test, document 02, Q-4: "if it has that attribute and the value ... equals it byte for byte", with the reading
// R-15; "Chain elements still lose their attributes"; several lines that differ in the test or in the mark alone; and demand 3, "a path
// being the same only with the same test", reading R-17: a cut stands there as a document again.

use super::{fault, kept, refused, Named};

pub fn all() -> Vec<Named> {
    let mut cases = passing();
    cases.extend(absent());
    cases.extend(many());
    cases.extend(tags());
    cases.extend(places());
    cases.extend(marks());
    cases.extend(faults());
    cases.extend(narrower());
    cases
}

const DOC: &str = "<g><p k='x'>1<v k=\"x\"/></p><p k='y'><v k='x'>2</v></p><p><v l='x'/></p><p k=''/></g>";

fn passing() -> Vec<Named> {
    let atlas = "<atlas><place type='town'>A</place><place id='2' type=\"village\">B</place><place>C</place><lake type='village'/></atlas>";
    vec![
        kept("//place[@type=\"village\"]\n", atlas, "<atlas><place id='2' type=\"village\"></place></atlas>", 1),
        kept("//place[@type=\"village\"] #\n", atlas, "<atlas><place id='2' type=\"village\">B</place></atlas>", 1),
        kept("//*[@type=\"village\"]\n", atlas, "<atlas><place id='2' type=\"village\"></place><lake type='village'></lake></atlas>", 2),
        kept("//place[@id=\"2\"]\n", atlas, "<atlas><place id='2' type=\"village\"></place></atlas>", 1),
        kept("//place[@type=\"hamlet\"]\n", atlas, "<atlas></atlas>", 0),
        kept("/g/p[@k=\"x\"]\n", DOC, "<g><p k='x'></p></g>", 1),
        kept("/g/p[@k=\"y\"] #\n", DOC, "<g><p k='y'><v k='x'>2</v></p></g>", 1),
        kept("//v[@l=\"x\"] #\n", DOC, "<g><p><v l='x'/></p></g>", 1),
        kept("//*[@k=\"x\"]\n", DOC, "<g><p k='x'><v k=\"x\"></v></p><p><v k='x'></v></p></g>", 3),
        kept("//p[@K=\"x\"]\n", DOC, "<g></g>", 0),
        kept("//v[@K=\"x\"] #\n", "<g><v k='x'/><v K='x'/><v k='y' K='x'/></g>", "<g><v K='x'/><v k='y' K='x'/></g>", 2),
        kept("//v[@k=\"x\"] #\n", "<g><v k='X'/><v K='x'/><v k='y' K='x'/></g>", "<g></g>", 0),
        kept("//p[@kk=\"x\"]\n", DOC, "<g></g>", 0),
        kept("//p[@p=\"x\"]\n", DOC, "<g></g>", 0),
        kept("//*[@x=\"k\"]\n", DOC, "<g></g>", 0),
        kept("//*[@\u{e9}=\"1\"]\n", "<g><a \u{e9}='1'/><b e\u{301}='1'/></g>", "<g><a \u{e9}='1'></a></g>", 1),
        kept("//*[@e\u{301}=\"1\"]\n", "<g><a \u{e9}='1'/><b e\u{301}='1'/></g>", "<g><b e\u{301}='1'></b></g>", 1),
        kept("/g[@xmlns=\"u\"]\n", "<g xmlns='u'/>", "<g xmlns='u'></g>", 1),
        kept("/g[@a:k=\"x\"]\n", "<g k='x' b:k='x'/>", "<g></g>", 0),
    ]
}

/// An attribute that is not there never passes, not even an empty value.
fn absent() -> Vec<Named> {
    vec![
        kept("/g[@k=\"\"]\n", "<g/>", "<g></g>", 0),
        kept("/g[@k=\"\"]\n", "<g l=''/>", "<g></g>", 0),
        kept("/g[@k=\"\"]\n", "<g k=''/>", "<g k=''></g>", 1),
        kept("/g[@k=\"\"] #\n", "<g k=\"\">1</g>", "<g k=\"\">1</g>", 1),
        kept("/g[@k=\"\"]\n", "<g k=' '/>", "<g></g>", 0),
        kept("//*[@k=\"\"]\n", DOC, "<g><p k=''></p></g>", 1),
        kept("//*[@m=\"\"]\n", DOC, "<g></g>", 0),
    ]
}

fn many() -> Vec<Named> {
    let all: String = (0..32).map(|i| format!(" k{i}='{i}'")).collect();
    let lines: String = (0..32).map(|i| format!("//v[@k=\"{i}\"]\n")).collect();
    let each: String = (0..34).map(|i| format!("<v k='{i}'></v>")).collect();
    let found: String = (0..32).map(|i| format!("<v k='{i}'></v>")).collect();
    vec![
        kept(&lines, "<g><v k='31'/><v k='32'/><v k='0'/></g>", "<g><v k='31'></v><v k='0'></v></g>", 2),
        kept(&lines, format!("<g>{each}</g>"), format!("<g>{found}</g>"), 32),
        kept("//v[@k=\"9\"]\n".repeat(31) + "//v[@k=\"1\"] #\n", "<g><v k='1'/></g>", "<g><v k='1'/></g>", 1),
        kept("/g[@k0=\"0\"]\n", format!("<g{all}/>"), format!("<g{all}></g>"), 1),
        kept("/g[@k31=\"31\"]\n", format!("<g{all}/>"), format!("<g{all}></g>"), 1),
        kept("/g[@k31=\"30\"]\n", format!("<g{all}/>"), "<g></g>", 0),
        kept("/g[@k3=\"31\"]\n", format!("<g{all}/>"), "<g></g>", 0),
        kept("/g[@k32=\"32\"]\n", format!("<g{all}/>"), "<g></g>", 0),
        kept("/g[@b=\"2\"]\n", "<g a='1' b='2' c='3'/>", "<g a='1' b='2' c='3'></g>", 1),
        kept("/g[@b=\"1\"]\n/g[@b=\"3\"]\n/g[@a=\"2\"]\n", "<g a='1' b='2' c='3'/>", "<g></g>", 0),
    ]
}

/// Start tags and empty tags; a tag's text, a child's tag and an end tag have none of its attributes.
fn tags() -> Vec<Named> {
    vec![
        kept("//v[@k=\"x\"]\n", "<g><v k='x'/><v k='x'></v><v k='x' ></v ><v\nk='x'\n/></g>",
             "<g><v k='x'></v><v k='x'></v><v k='x' ></v><v\nk='x'\n></v></g>", 4),
        kept("//v[@k=\"x\"] #\n", "<g><v k='x'/><v k='x'></v><v k='x' ></v ></g>", "<g><v k='x'/><v k='x'></v><v k='x' ></v ></g>", 3),
        kept("//v[@k=\"x\"]\n", "<g><v>k='x'<!--<v k='x'/>--><![CDATA[<v k='x'/>]]></v></g>", "<g></g>", 0),
        kept("//v[@k=\"x\"]\n", "<g><?v k=\"x\"?><v/></g>", "<g></g>", 0),
        kept("/g[@k=\"x\"]\n", "<g><v k='x'/></g>", "<g></g>", 0),
        kept("/g/v[@k=\"x\"]\n", "<g k='x'><v/></g>", "<g></g>", 0),
        kept("/g/v[@k=\"x\"]\n", "<g k='x'><v k='y'/><v k='x'/><v/></g>", "<g><v k='x'></v></g>", 1),
        kept("//v[@k=\"x\"]\n", "<g><v k='x'><v/></v><v><v k='x'/></v></g>", "<g><v k='x'></v><v><v k='x'></v></v></g>", 2),
        kept("/g[@version=\"1.0\"]\n", "<?xml version=\"1.0\"?><g/>", "<g></g>", 0),
    ]
}

/// The test is of the last step's place alone, and an end tag goes back to what was before.
fn places() -> Vec<Named> {
    vec![
        kept("//a//b[@k=\"x\"]\n", "<a><b><b k='x'/></b><b k='y'/></a>", "<a><b><b k='x'></b></b></a>", 1),
        kept("//a/b[@k=\"x\"]\n", "<a><c k='x'/><b k='x'/></a>", "<a><b k='x'></b></a>", 1),
        kept("//a/a/b[@k=\"x\"]\n", "<a><a><a><b k='x'/></a></a></a>", "<a><a><a><b k='x'></b></a></a></a>", 1),
        kept("/g/v[@k=\"x\"]\n", "<g><v k='x'/><v k='y'/><v k='x'/><v/></g>", "<g><v k='x'></v><v k='x'></v></g>", 2),
        kept("/g/v[@k=\"x\"]\n", "<g><v k='x'><v k='x'/></v><p k='x'/></g>", "<g><v k='x'></v></g>", 1),
        kept("//*/self::v[@k=\"x\"]\n", "<g k='x'><v k='x'/><v/></g>", "<g><v k='x'></v></g>", 1),
        kept("//p/descendant-or-self::*[@k=\"x\"]\n", DOC, "<g><p k='x'><v k=\"x\"></v></p><p><v k='x'></v></p></g>", 3),
        kept("/self::*/v[@k=\"x\"]\n", "<g><v k='x'/></g>", "<g></g>", 0),
    ]
}

/// Lines that differ in the test alone, or in the mark alone.
fn marks() -> Vec<Named> {
    vec![
        kept("//p[@k=\"x\"]\n//p[@k=\"y\"]\n", DOC, "<g><p k='x'></p><p k='y'></p></g>", 2),
        kept("//p[@k=\"x\"]\n//p[@k=\"y\"] #\n", DOC, "<g><p k='x'></p><p k='y'><v k='x'>2</v></p></g>", 2),
        kept("//p[@k=\"x\"] #\n//p[@k=\"y\"]\n", DOC, "<g><p k='x'>1<v k=\"x\"/></p><p k='y'></p></g>", 2),
        kept("//p[@k=\"x\"]\n//p[@k=\"x\"] #\n", DOC, "<g><p k='x'>1<v k=\"x\"/></p></g>", 1),
        kept("//p[@k=\"x\"]\n//p[@k=\"x\"]\n", DOC, "<g><p k='x'></p></g>", 1),
        kept("//p\n//p[@k=\"y\"] #\n", DOC, "<g><p k='x'></p><p k='y'><v k='x'>2</v></p><p></p><p k=''></p></g>", 4),
        kept("//p #\n//p[@k=\"y\"]\n", DOC, DOC, 4),
        kept("//p[@k=\"y\"] #\n//v[@k=\"x\"]\n", DOC, "<g><p><v k=\"x\"></v></p><p k='y'><v k='x'>2</v></p></g>", 3),
        kept("/g[@k=\"x\"] #\n/g\n", "<g k='y'>1</g>", "<g k='y'></g>", 1),
        kept("//p[@k=\"y\"] #\n", DOC, "<g><p k='y'><v k='x'>2</v></p></g>", 1).room(34),
        refused("//p[@k=\"y\"] #\n", DOC, 9, 34).room(33),
        refused("//p[@k=\"z\"] #\n", DOC, 9, 7).room(6),
    ]
}

/// The document is judged as before, whatever is tested.
fn faults() -> Vec<Named> {
    vec![
        refused("//v[@k=\"x\"]\n", "<g><v k='x' k='x'/></g>", 7, 3),
        refused("//v[@k=\"x\"]\n", "<g><v k='x' l='y' k='y'/></g>", 7, 3),
        refused("//v[@k=\"x\"]\n", "<g><v k='x'/><v k=x/></g>", 7, 13),
        refused("//v[@k=\"x\"]\n", "<g><v k='&nbsp;'/></g>", 7, 3),
        refused("//v[@k=\"x\"]\n", "<g><v k='&#0;'/></g>", 7, 3),
        refused("//v[@k=\"x\"]\n", b"<g><v k='\xff'/></g>", 5, 9),
        refused("//v[@k=\"x\"]\n", format!("<g><v {}='x'/></g>", "k".repeat(256)), 8, 3),
        fault("<g k='x' k='x'/>", 0),
        kept("/g[@k=\"\"]\n", format!("<g k='{}'/>", "x".repeat(3_000)), "<g></g>", 0),
    ]
}

/// The cut by `//p[@k="x"]`, `//p[@k="y"] #`, `//v[@k="x"]` and `//p[@k=""]` of the document, cut again by narrower lists: as the
/// document's. Then lists that are not narrower, where the cut has lost what they ask for.
fn narrower() -> Vec<Named> {
    let wide = "<g><p k='x'><v k=\"x\"></v></p><p k='y'><v k='x'>2</v></p><p k=''></p></g>";
    let chain = "<g><p><v k=\"x\"></v></p><p><v k='x'></v></p></g>";
    vec![
        kept("//p[@k=\"x\"]\n//p[@k=\"y\"] #\n//v[@k=\"x\"]\n//p[@k=\"\"]\n", DOC, wide, 5),
        kept("//p[@k=\"x\"]\n//p[@k=\"y\"] #\n//v[@k=\"x\"]\n//p[@k=\"\"]\n", wide, wide, 5),
        kept("//p[@k=\"x\"]\n", wide, "<g><p k='x'></p></g>", 1),
        kept("//p[@k=\"y\"] #\n", wide, "<g><p k='y'><v k='x'>2</v></p></g>", 1),
        kept("//p[@k=\"y\"]\n", wide, "<g><p k='y'></p></g>", 1),
        kept("//p[@k=\"y\"]\n", DOC, "<g><p k='y'></p></g>", 1),
        kept("//v[@k=\"x\"]\n", wide, chain, 2),
        kept("//v[@k=\"x\"]\n", DOC, chain, 2),
        kept("//v[@k=\"x\"]\n", chain, chain, 2),
        kept("//p[@k=\"\"]\n", wide, "<g><p k=''></p></g>", 1),
        kept("//p[@k=\"\"]\n", chain, "<g></g>", 0),
        kept("//p[@k=\"\"]\n", DOC, "<g><p k=''></p></g>", 1),
        kept("//p[@k=\"x\"]\n", chain, "<g></g>", 0),
        kept("//*[@k=\"x\"]\n", chain, chain, 2),
        kept("", wide, "<g></g>", 0),
        // Other tests than those of the wide list: not the same path, and not the same cut.
        kept("//v[@l=\"x\"]\n", wide, "<g></g>", 0),
        kept("//v[@l=\"x\"]\n", DOC, "<g><p><v l='x'></v></p></g>", 1),
        kept("//p[@k=\"x\"] #\n", wide, "<g><p k='x'><v k=\"x\"></v></p></g>", 1),
        kept("//p[@k=\"x\"] #\n", DOC, "<g><p k='x'>1<v k=\"x\"/></p></g>", 1),
    ]
}
