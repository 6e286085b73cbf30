// The pass: items one after the other, each checked in its place; start tags matched; what is kept written.

use crate::chars::is_white;
use crate::machine::{Bits, Machine};
use crate::markup::{comment, instruction, reference, section, text};
use crate::tag::{at, end_tag, repeated, tag, Attributes, Tag, NAME_BYTES};
use crate::value::passes;
use crate::{refuse, Cut, Refusal};

const DEPTH: usize = 64;
/// No level is this one.
const NO_LEVEL: usize = DEPTH + 1;

pub struct Filter<'a, const N: usize> {
    text: &'a str,
    doc: &'a [u8],
    machine: &'a Machine<'a, N>,
    attributes: Attributes,
    /// At a level the state below its element; at 0 that above the root.
    states: [Bits<N>; DEPTH + 1],
    /// Where the names of the open elements stand, from level 1 on.
    names: [(u32, u32); DEPTH + 1],
    level: usize,
    has_root: bool,
    /// The level up to which start tags are written.
    written: usize,
    /// The level of the entry that is being kept, and where it begins.
    kept: usize,
    kept_from: usize,
    cut: Cut,
}

/// What is wrong with an item.
type Number = u64;
const DOCTYPE: Number = 6;
const MALFORMED: Number = 7;
const TOO_LARGE: Number = 8;

/// What the list says of an element.
struct Verdict {
    selected: bool,
    marked: bool,
}

impl<'a, const N: usize> Filter<'a, N> {
    pub fn new(text: &'a str, machine: &'a Machine<'a, N>) -> Self {
        Filter {
            text,
            doc: text.as_bytes(),
            machine,
            attributes: Attributes::none(),
            states: [machine.fresh; DEPTH + 1],
            names: [(0, 0); DEPTH + 1],
            level: 0,
            has_root: false,
            written: 0,
            kept: NO_LEVEL,
            kept_from: 0,
            cut: Cut { bytes: Vec::with_capacity(text.len()), selected: 0 },
        }
    }

    /// All items from a place on, the first of which is no declaration.
    pub(crate) fn run(mut self, from: usize) -> Result<Cut, Refusal> {
        let mut next = from;
        while next < self.doc.len() {
            next = match self.item(next) {
                Ok(end) => end,
                Err(number) => return refuse(number, next),
            };
        }
        if self.level > 0 || !self.has_root {
            return refuse(MALFORMED, self.doc.len());
        }
        Ok(self.cut)
    }

    /// The place behind the item.
    #[inline(always)]
    fn item(&mut self, from: usize) -> Result<usize, Number> {
        match (self.doc[from], self.doc.get(from + 1)) {
            (b'<', Some(b'/')) => self.end(from),
            (b'<', Some(b'?')) => instruction(self.text, from).ok_or(MALFORMED),
            (b'<', Some(b'!')) => self.declared(from),
            (b'<', _) => self.start(from),
            (b'&', _) => self.inside(reference(self.doc, from).map(|(_, end)| end)),
            _ => {
                let end = text(self.doc, from).ok_or(MALFORMED)?;
                let stands = self.level > 0 || self.doc[from..end].iter().all(|&b| is_white(b));
                stands.then_some(end).ok_or(MALFORMED)
            }
        }
    }

    /// The end of an item that is sound inside the root only.
    fn inside(&self, end: Option<usize>) -> Result<usize, Number> {
        end.filter(|_| self.level > 0).ok_or(MALFORMED)
    }

    /// An item that begins with `<!`.
    fn declared(&self, from: usize) -> Result<usize, Number> {
        let rest = &self.doc[from..];
        if rest.starts_with(b"<!--") {
            comment(self.doc, from).ok_or(MALFORMED)
        } else if rest.starts_with(b"<![CDATA[") {
            self.inside(section(self.doc, from))
        } else if rest.starts_with(b"<!DOCTYPE") {
            Err(DOCTYPE)
        } else {
            Err(MALFORMED)
        }
    }

    fn start(&mut self, from: usize) -> Result<usize, Number> {
        let tag = tag(self.text, from, &mut self.attributes).ok_or(MALFORMED)?;
        if self.level == DEPTH || tag.is_large(from, &self.attributes) {
            return Err(TOO_LARGE);
        }
        if self.level == 0 && self.has_root || repeated(self.doc, &self.attributes) {
            return Err(MALFORMED);
        }
        self.has_root = true;
        let (hits, below) = self.machine.deeper(&self.states[self.level], self.doc, from + 1, tag.name_end);
        let verdict = self.verdict(hits);
        self.cut.selected += u64::from(verdict.selected);
        self.level += 1;
        self.states[self.level] = below;
        self.names[self.level] = (from as u32 + 1, tag.name_end as u32);
        if self.kept == NO_LEVEL {
            self.open(from, &tag, &verdict);
        }
        if tag.is_empty() {
            self.close(tag.end);
        }
        Ok(tag.end)
    }

    #[inline(always)]
    fn verdict(&self, mut hits: Bits<N>) -> Verdict {
        if self.machine.has_tests {
            self.test(&mut hits);
        }
        let (mut selected, mut marked) = (0, 0);
        for i in 0..N {
            selected |= hits[i] & self.machine.last[i];
            marked |= hits[i] & self.machine.marked[i];
        }
        Verdict { selected: selected != 0, marked: marked != 0 }
    }

    /// Takes out the last steps whose test the tag does not pass. Each test is tried once for a tag.
    fn test(&self, hits: &mut Bits<N>) {
        let (mut tried, mut passed) = (0u32, 0u32);
        for i in 0..N {
            let mut asked = hits[i] & self.machine.tested[i];
            while asked != 0 {
                let bit = asked.trailing_zeros() as usize;
                asked &= asked - 1;
                let number = self.machine.test_of[64 * i + bit];
                if tried >> number & 1 == 0 {
                    tried |= 1 << number;
                    let passes = passes(self.doc, self.attributes.held(), &self.machine.tests[number as usize]);
                    passed |= u32::from(passes) << number;
                }
                hits[i] &= !(u64::from(passed >> number & 1 == 0) << bit);
            }
        }
    }

    /// What a start tag writes, outside kept entries. An entry that is kept is copied at its end.
    #[inline(always)]
    fn open(&mut self, from: usize, tag: &Tag, verdict: &Verdict) {
        if verdict.selected {
            self.chain(self.level - 1);
            if verdict.marked {
                self.kept = self.level;
                self.kept_from = from;
                return;
            }
            self.cut.bytes.extend_from_slice(&self.doc[from..tag.head_end]);
            self.cut.bytes.push(b'>');
            self.written = self.level;
        } else if self.level == 1 {
            self.chain(1);
        }
    }

    /// Writes bare start tags up to a level.
    fn chain(&mut self, level: usize) {
        while self.written < level {
            self.written += 1;
            self.cut.bytes.push(b'<');
            self.cut.bytes.extend_from_slice(at(self.doc, self.names[self.written]));
            self.cut.bytes.push(b'>');
        }
    }

    fn end(&mut self, from: usize) -> Result<usize, Number> {
        let name = at(self.doc, self.names[self.level]);
        let behind = from + 2 + name.len();
        // Nearly every end tag is the open name and `>`.
        if self.level > 0 && self.doc.get(behind) == Some(&b'>') && &self.doc[from + 2..behind] == name {
            self.close(behind + 1);
            return Ok(behind + 1);
        }
        let (name_end, end) = end_tag(self.text, from).ok_or(MALFORMED)?;
        if name_end - from - 2 > NAME_BYTES {
            return Err(TOO_LARGE);
        }
        if self.level == 0 || &self.doc[from + 2..name_end] != name {
            return Err(MALFORMED);
        }
        self.close(end);
        Ok(end)
    }

    /// The innermost element ends at a place.
    #[inline(always)]
    fn close(&mut self, end: usize) {
        if self.kept == self.level {
            self.cut.bytes.extend_from_slice(&self.doc[self.kept_from..end]);
            self.kept = NO_LEVEL;
        } else if self.written == self.level {
            self.cut.bytes.extend_from_slice(b"</");
            self.cut.bytes.extend_from_slice(at(self.doc, self.names[self.level]));
            self.cut.bytes.push(b'>');
            self.written -= 1;
        }
        self.level -= 1;
    }
}
