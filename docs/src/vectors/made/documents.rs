// Sound documents over a few names, so that paths hit: elements inside elements to a moderate depth, and every kind of item among them.
// Of those with a declaration one in twenty names another encoding than UTF-8, and is sound but for that. With the bytes come the chains,
// the names from the root down to each element, and the attributes of each, for the lists to be made by.

use super::random::Random;

/// Names alike in their fronts, composed and decomposed accents, characters of four bytes, colons and what looks like markup elsewhere, or
/// like an axis in a list.
#[rustfmt::skip]
const NAMES: &[&str] = &[
    "a", "b", "c", "g", "v", "n", "aa", "ab", "\u{e9}", "e\u{301}", "e", "x:y", "_", "a-1.b", "\u{10000}", "xml", ":", ":a", "self",
    "self:a", "self::a", "a::b",
];
#[rustfmt::skip]
const ATTRIBUTES: &[&str] = &["k", "kk", "K", "l", "xmlns:a", "xmlns", "\u{e9}", "e\u{301}", "a", "a::b", "_", "\u{10000}"];
/// Values with their quotes, and the value that a test in a list has to have to pass; where none passes, one that nearly would.
#[rustfmt::skip]
pub const VALUES: &[(&str, &str)] = &[
    ("'1'", "1"), ("\"1\"", "1"), ("\"&#49;\"", "1"), ("' 1 '", " 1 "), ("''", ""), ("\"\"", ""), ("\"'\"", "'"), ("'&apos;'", "'"),
    ("'>'", ">"), ("'&gt;'", ">"), ("\"/>\"", "/>"), ("']]>'", "]]>"), ("\"]\"", "]"), ("'--'", "--"), ("' #'", " #"), ("'a b'", "a b"),
    ("'a\tb'", "a b"), ("\"a\nb\"", "a b"), ("'a\rb'", "a b"), ("\"a\r\nb\"", "a b"), ("'a&#32;b'", "a b"), ("'a\n b'", "a  b"),
    ("'a\n\rb'", "a  b"), ("'\u{e9}&#xe9;'", "\u{e9}\u{e9}"), ("\"e\u{301}\"", "e\u{301}"), ("'\u{10000}'", "\u{10000}"),
    ("'&#x10000;'", "\u{10000}"),
    // None passes.
    ("\"&lt;\"", ">"), ("'\"'", "'"), ("'&amp;gt;'", ">"), ("'a&#10;b'", "a b"), ("\"a&#x9;b\"", "a b"), ("'a&#13;b'", "a b"),
    ("'a\r&#10;b'", "a  b"), ("'a&#13;\nb'", "a  b"),
];
#[rustfmt::skip]
const TEXTS: &[&str] = &[
    "Aar", " ", "\n", "\t", "\r\n", "\u{e9}", "\u{10000}", ">", "]]", "]", "' \"", "/>", "-->", "?>", "\u{feff}", "#", "x]>",
];
#[rustfmt::skip]
const REFERENCES: &[&str] = &["&amp;", "&lt;", "&gt;", "&apos;", "&quot;", "&#65;", "&#x41;", "&#0009;", "&#x10FFFF;", "&#xD7ff;"];
#[rustfmt::skip]
const SECTIONS: &[&str] = &["<![CDATA[]]>", "<![CDATA[<a>&]]>", "<![CDATA[]]]]>", "<![CDATA[<!DOCTYPE]]>", "<![CDATA[ ]]>"];
#[rustfmt::skip]
const MISC: &[&str] = &[
    "<!--c-->", "<!---->", "<!-- - <a> & -->", "<!--<!DOCTYPE-->", "<?p?>", "<?p x?>", "<?xml-s a='<'?>", "<?a ??>", "<?p <!DOCTYPE?>",
];
const DECLARATIONS: &[&str] = &[
    "<?xml version=\"1.0\"?>",
    "<?xml version='1.10' encoding='UTF-8' ?>",
    "<?xml version=\"1.0\" standalone='yes'?>",
    "<?xml\nversion = '1.1'\tencoding=\"utf-8\" standalone = \"no\"?>",
];
/// Of the right shape, but in another encoding: the whole document is refused for it.
const OTHER_DECLARATIONS: &[&str] = &[
    "<?xml version=\"1.0\" encoding=\"ISO-8859-1\"?>",
    "<?xml version='1.0' encoding='UTF8' ?>",
    "<?xml version='1.0' encoding='UTF-16' standalone='yes'?>",
    "<?xml\nversion = '1.1'\tencoding=\"x-y_1.2\" standalone = \"no\"?>",
];
const BLANKS: &[&str] = &[" ", " ", " ", "  ", "\n", "\t", "\r\n"];
const EQUALS: &[&str] = &["=", "=", "=", " = ", "=\n", "\t="];

/// The depth that no document of the general kind passes: the second program tries every choice of places.
const DEPTH: usize = 7;

pub struct Grown {
    pub bytes: Vec<u8>,
    pub names: Vec<&'static str>,
    /// Names of attributes, and values as in VALUES. There are few of each, so that the same come again.
    pub attributes: Vec<&'static str>,
    pub values: Vec<(&'static str, &'static str)>,
    pub chains: Vec<Vec<&'static str>>,
    /// The attributes of each chain's last element: the name, and the value that a test has to have.
    pub owned: Vec<Vec<(&'static str, &'static str)>>,
}

struct Grower<'a> {
    random: &'a mut Random,
    grown: Grown,
    chain: Vec<&'static str>,
    /// How many elements may still begin.
    left: usize,
}

pub fn document(random: &mut Random) -> Grown {
    let names = (0..random.between(2, 4)).map(|_| random.pick(NAMES)).collect();
    let attributes = (0..random.between(1, 3)).map(|_| random.pick(ATTRIBUTES)).collect();
    let values = (0..random.between(2, 4)).map(|_| random.pick(VALUES)).collect();
    let left = random.between(1, 14);
    let grown = Grown { bytes: Vec::new(), names, attributes, values, chains: Vec::new(), owned: Vec::new() };
    let mut grower = Grower { random, grown, chain: Vec::new(), left };
    grower.document();
    grower.grown
}

impl Grower<'_> {
    fn put(&mut self, text: &str) {
        self.grown.bytes.extend_from_slice(text.as_bytes());
    }

    fn any(&mut self, texts: &[&'static str]) {
        let text = self.random.pick(texts);
        self.put(text);
    }

    fn maybe(&mut self, times: usize, texts: &[&'static str]) {
        if self.random.one_in(times) {
            self.any(texts);
        }
    }

    fn document(&mut self) {
        self.maybe(10, &["\u{feff}"]);
        if self.random.one_in(5) {
            let is_other = self.random.one_in(20);
            self.any(if is_other { OTHER_DECLARATIONS } else { DECLARATIONS });
        }
        self.maybe(6, &[" ", "\n"]);
        self.maybe(8, MISC);
        self.element();
        self.maybe(4, &[" ", "\n"]);
        self.maybe(8, MISC);
    }

    fn element(&mut self) {
        self.left = self.left.saturating_sub(1);
        let name = self.random.pick(&self.grown.names);
        self.chain.push(name);
        self.grown.chains.push(self.chain.clone());
        self.put("<");
        self.put(name);
        self.attributes();
        self.maybe(8, BLANKS);
        if self.left == 0 || self.chain.len() > 1 && self.random.one_in(3) {
            self.put("/>");
        } else {
            self.put(">");
            self.content();
            self.put("</");
            self.put(name);
            self.maybe(8, BLANKS);
            self.put(">");
        }
        self.chain.pop();
    }

    fn attributes(&mut self) {
        let mut told: Vec<(&str, &str)> = Vec::new();
        while self.random.one_in(3) && told.len() < 4 {
            let rare = self.random.one_in(5);
            let name = if rare { self.random.pick(ATTRIBUTES) } else { self.random.pick(&self.grown.attributes) };
            let (value, passing) = if rare { self.random.pick(VALUES) } else { self.random.pick(&self.grown.values) };
            if !told.iter().any(|(other, _)| *other == name) {
                told.push((name, passing));
                self.any(BLANKS);
                self.put(name);
                self.any(EQUALS);
                self.put(value);
            }
        }
        self.grown.owned.push(told);
    }

    /// Two texts never stand side by side, since `]]` and `>` would make what no text may hold.
    fn content(&mut self) {
        let mut after_text = false;
        for _ in 0..self.random.between(1, 5) {
            after_text = match self.random.below(9) {
                0..=3 if self.left > 0 && self.chain.len() < DEPTH => {
                    self.element();
                    false
                }
                0..=5 => {
                    if !after_text {
                        self.any(TEXTS);
                    }
                    true
                }
                kind => {
                    self.any([REFERENCES, SECTIONS, MISC][kind - 6]);
                    false
                }
            };
        }
    }
}
