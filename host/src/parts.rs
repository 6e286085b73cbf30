//! What becomes of each part of a document that is cut: kept whole, kept as a tag, kept as a name on the way, or dropped. Which lines
//! select which elements the library has told (`picked`). What follows from that is the request's rule of what is written, and the parts
//! that are kept, put together by it, have to be the library's own cut: so the page shows no other cut than the one that is made.
use crate::outline::{self, Kind};
use crate::picked::Element;

#[derive(Clone, Copy, PartialEq, Eq, Debug)]
pub enum Fate {
    /// In an element that a marked line selects.
    Whole,
    /// The tag of an element that a line selects.
    Tag,
    /// The name of an element that is above a selected one, or of the root.
    Chain,
    Dropped,
}

/// Bytes of the document up to `to`, from where the part before ends. `lines` are those that select the element whose tag begins there.
#[derive(Clone, Copy, PartialEq, Eq, Debug)]
pub struct Part {
    pub fate: Fate,
    pub to: usize,
    pub lines: u32,
}

/// What becomes of each element. `marked` has a bit for each line with a mark.
pub fn fates(elements: &[Element], marked: u32) -> Vec<Fate> {
    let mut fates: Vec<Fate> = elements.iter().map(|element| if element.lines == 0 { Fate::Dropped } else { Fate::Tag }).collect();
    // Parents come before their children: so from the end on all that is under an element is known, and from the front all above it.
    for i in (0..elements.len()).rev() {
        let parent = elements[i].parent as usize;
        if fates[i] != Fate::Dropped && fates[parent] == Fate::Dropped {
            fates[parent] = Fate::Chain;
        }
    }
    for (i, element) in elements.iter().enumerate() {
        if element.lines & marked != 0 || fates[element.parent as usize] == Fate::Whole {
            fates[i] = Fate::Whole;
        } else if i == 0 && fates[i] == Fate::Dropped {
            fates[i] = Fate::Chain;
        }
    }
    fates
}

/// The parts of a document, neighbours with the same fate in one, and what is written of them.
pub struct Parts {
    pub parts: Vec<Part>,
    pub written: Vec<u8>,
}

pub fn parts(document: &[u8], elements: &[Element], fates: &[Fate]) -> Parts {
    let mut parts = Parts { parts: Vec::new(), written: Vec::new() };
    let (mut open, mut next) = (Vec::new(), 0);
    for (kind, from, to) in outline::items(document) {
        let inside = open.last().map_or(Fate::Dropped, |&last: &usize| fates[last]);
        // The text before it, and an item that is no tag.
        parts.content(document, inside, if kind == Kind::Other { to } else { from });
        match kind {
            Kind::Start | Kind::Empty => {
                parts.start(document, &elements[next], fates[next], to);
                if kind == Kind::Start {
                    open.push(next);
                } else {
                    parts.end(document, &elements[next], fates[next], to);
                }
                next += 1;
            }
            Kind::End => {
                if let Some(number) = open.pop() {
                    parts.end(document, &elements[number], fates[number], to);
                }
            }
            Kind::Other => {}
        }
    }
    parts.content(document, Fate::Dropped, document.len());
    parts
}

impl Parts {
    fn at(&self) -> usize {
        self.parts.last().map_or(0, |part| part.to)
    }

    fn add(&mut self, fate: Fate, to: usize, lines: u32) {
        if to == self.at() {
            return;
        }
        match self.parts.last_mut() {
            Some(last) if last.fate == fate && lines == 0 => last.to = to,
            _ => self.parts.push(Part { fate, to, lines }),
        }
    }

    /// What is no tag is kept inside an entry alone.
    fn content(&mut self, document: &[u8], inside: Fate, to: usize) {
        if inside == Fate::Whole {
            self.written.extend(&document[self.at()..to]);
            self.add(Fate::Whole, to, 0);
        } else {
            self.add(Fate::Dropped, to, 0);
        }
    }

    /// The start tag or the empty tag that ends at `to`. In that of an element on the way the attributes are dropped.
    fn start(&mut self, document: &[u8], element: &Element, fate: Fate, to: usize) {
        let (name, front) = (element.name(document), element.front(document));
        let from = self.at();
        match fate {
            Fate::Whole => self.written.extend(element.tag(document)),
            Fate::Tag => self.written.extend(front.iter().chain(b">")),
            Fate::Chain => {
                self.written.extend([b"<", name, b">"].concat());
                self.add(fate, from + 1 + name.len(), element.lines);
                self.add(Fate::Dropped, from + front.len(), 0);
            }
            Fate::Dropped => {}
        }
        self.add(fate, to, element.lines);
    }

    /// The end tag that ends at `to`; behind an empty tag there is none, but where its tag alone is kept one is written.
    fn end(&mut self, document: &[u8], element: &Element, fate: Fate, to: usize) {
        match fate {
            Fate::Whole => self.written.extend(&document[self.at()..to]),
            Fate::Tag | Fate::Chain => self.written.extend([b"</", element.name(document), b">"].concat()),
            Fate::Dropped => {}
        }
        self.add(fate, to, 0);
    }
}

#[cfg(test)]
mod tests {
    use super::*;
    use crate::picked::picked;
    use Fate::*;

    fn marked(list: &str) -> u32 {
        list.lines().enumerate().filter(|(_, line)| line.ends_with(" #")).fold(0, |bits, (i, _)| bits | 1 << i)
    }

    /// The parts of a document, after it is seen that they make the cut.
    fn of(list: &str, document: &str) -> Vec<(Fate, String, u32)> {
        let document = document.as_bytes();
        let elements = picked(list.as_bytes(), document);
        let parts = parts(document, &elements, &fates(&elements, marked(list)));
        let cut = choughbell::cut_of(list.as_bytes(), document).unwrap().bytes;
        assert_eq!(String::from_utf8(parts.written), String::from_utf8(cut));
        let mut from = 0;
        let text = |part: &Part| {
            let text = String::from_utf8(document[from..part.to].to_vec()).unwrap();
            from = part.to;
            (part.fate, text, part.lines)
        };
        parts.parts.iter().map(text).collect()
    }

    fn part(fate: Fate, text: &str, lines: u32) -> (Fate, String, u32) {
        (fate, text.to_string(), lines)
    }

    #[test]
    fn parts_of_a_document() {
        let parts = of("//v\n//w #\n", "<?p?><g k='1'>a<v b='2'/><w>x<v/></w ><y>b</y></g>\n");
        let expected = [
            part(Dropped, "<?p?>", 0),
            part(Chain, "<g", 0),
            part(Dropped, " k='1'", 0),
            part(Chain, ">", 0),
            part(Dropped, "a", 0),
            part(Tag, "<v b='2'/>", 1),
            part(Whole, "<w>x", 2),
            part(Whole, "<v/></w >", 1),
            part(Dropped, "<y>b</y>", 0),
            part(Chain, "</g>", 0),
            part(Dropped, "\n", 0),
        ];
        assert_eq!(parts, expected);
        assert_eq!(of("", "<g/>"), [part(Chain, "<g/>", 0)]);
        assert_eq!(of("/g #\n", "<g>a</g>"), [part(Whole, "<g>a</g>", 1)]);
    }

    /// Elements with the same tag, of which one alone is on the way to another.
    #[test]
    fn the_right_one_of_equals() {
        let parts = of("//v\n", "<g><p></p><p><v/></p><p/></g>");
        let expected = [
            part(Chain, "<g>", 0),
            part(Dropped, "<p></p>", 0),
            part(Chain, "<p>", 0),
            part(Tag, "<v/>", 1),
            part(Chain, "</p>", 0),
            part(Dropped, "<p/>", 0),
            part(Chain, "</g>", 0),
        ];
        assert_eq!(parts, expected);
    }

    /// All documents of a few items by some lists: each time the parts make the library's cut.
    #[test]
    fn parts_make_the_cut() {
        let pieces = ["<a>", "<b k='1' >", "<a/>", "<b k=\"&gt;\"\n/>", "</a>", "</b\t>", " x", "<!--<a>-->", "<![CDATA[</a>]]>", "&lt;"];
        let lists = ["", "//a\n", "//b #\n", "//a #\n//b\n", "//a/b\n", "//*[@k=\"1\"]\n//b/a #\n", "/r\n", "/r/*/a\n//b[@k=\">\"] #\n"];
        let (mut seed, mut sound) = (1u64, 0);
        for _ in 0..20_000 {
            let mut document = "<r>".to_string();
            for _ in 0..8 {
                seed = seed.wrapping_mul(6_364_136_223_846_793_005).wrapping_add(1_442_695_040_888_963_407);
                document += pieces[(seed >> 33) as usize % pieces.len()];
            }
            document += "</r>";
            if choughbell::check(document.as_bytes()).is_ok() {
                sound += 1;
                lists.iter().for_each(|list| drop(of(list, &document)));
            }
        }
        assert!(sound > 100, "{sound}");
    }
}
