// A gazetteer of some 8 MiB, or of another size, the same at each run: places within places, as an editor keeps them, indented, a child on
// a line. Names have accents; there are positions, counts, notes with references, comments, CDATA sections and instructions. It is
// well-formed and within document 01's sizes; its elements lie up to twelve deep.
use crate::numbers::Numbers;
use std::fmt::Write;

pub const SIZE: usize = 8 << 20;

/// Kinds of place, from the widest. One lies in a kind before its own; a commune may lie in a commune.
pub const KINDS: [&str; 9] = ["continent", "country", "region", "province", "district", "commune", "parish", "village", "hamlet"];
const COMMUNE: usize = 5;
/// The root is at level 1; a place at this level has farms in it, and these have names: level 12.
const DEEPEST: usize = 10;

const SYLLABLES: [&str; 24] = [
    "Aar", "bel", "court", "dorf", "Ém", "fleu", "grün", "haut", "ing", "jou", "kir", "lac", "mont", "neu", "ost", "pré", "quin", "roc",
    "saint", "tour", "val", "wald", "zell", "ville",
];
const WORDS: [&str; 24] = [
    "the", "village", "lies", "on", "an", "old", "road", "near", "the", "river", "and", "has", "a", "small", "church", "two", "mills",
    "and", "a", "market", "held", "each", "forêt", "école",
];

struct Gazetteer {
    numbers: Numbers,
    text: String,
    /// From this length on no place begins.
    size: usize,
}

impl Gazetteer {
    fn name(&mut self) -> String {
        (0..2 + self.numbers.below(3)).map(|_| *self.numbers.of(&SYLLABLES)).collect()
    }

    fn words(&mut self, least: usize, more: usize) -> String {
        let words: Vec<&str> = (0..least + self.numbers.below(more)).map(|_| *self.numbers.of(&WORDS)).collect();
        words.join(" ")
    }

    /// A line at a level.
    fn line(&mut self, level: usize, text: &str) {
        writeln!(self.text, "{:1$}{text}", "", 2 * level - 2).unwrap();
    }

    /// A note: words, now and then with a reference or a section in it.
    fn note(&mut self) -> String {
        let mut note = self.words(5, 35);
        match self.numbers.below(8) {
            0 | 1 => note += &format!(" &amp; {}", self.words(3, 3)),
            2 => note += &format!(" &#{}; {}", 192 + self.numbers.below(60), self.words(3, 3)),
            3 => note += &format!(" <![CDATA[{} < {} & so on]]>", self.words(2, 5), self.words(1, 3)),
            _ => {}
        }
        note
    }

    /// What is said of any place.
    fn about(&mut self, level: usize) {
        let name = self.name();
        let lang = *self.numbers.of(&["fr", "de", "it"]);
        self.line(level, &format!("<name lang=\"{lang}\">{name}</name>"));
        if self.numbers.once_in(2) {
            let (lat, lon) = (41_00000 + self.numbers.below(10_00000), self.numbers.below(9_00000));
            self.line(level, &format!("<pos lat=\"{}.{:05}\" lon=\"{}.{:05}\"/>", lat / 100000, lat % 100000, lon / 100000, lon % 100000));
        }
        if self.numbers.once_in(3) {
            let (year, count) = (1990 + self.numbers.below(30), 10 + self.numbers.below(90000));
            self.line(level, &format!("<pop year='{year}'>{count}</pop>"));
        }
        if self.numbers.once_in(3) {
            let note = self.note();
            self.line(level, &format!("<note type=\"text\">{note}</note>"));
        }
        match self.numbers.below(60) {
            0..=2 => {
                let name = self.name();
                self.line(level, &format!("<!-- checked by {name} in May -->"));
            }
            3 => self.line(level, "<?sort by name?>"),
            _ => {}
        }
    }

    fn farm(&mut self, level: usize) {
        let (name, number) = (self.name(), 1 + self.numbers.below(400));
        let owner = match self.numbers.once_in(3) {
            true => format!("<owner since=\"{}\">{}</owner>", 1800 + self.numbers.below(220), self.name()),
            false => String::new(),
        };
        self.line(level, &format!("<farm no=\"{number}\"><name>{name}</name>{owner}</farm>"));
    }

    /// The kind of a place in a place: the next, or that after it; in a commune a commune too.
    fn kind_in(&mut self, kind: usize) -> usize {
        if kind == COMMUNE && self.numbers.once_in(6) {
            return kind;
        }
        (kind + 1 + self.numbers.once_in(5) as usize).min(KINDS.len() - 1)
    }

    fn place(&mut self, kind: usize, level: usize) {
        let (id, name, code) = (self.numbers.below(100000), self.name(), 100 + self.numbers.below(900));
        self.line(level, &format!("<{} id=\"{}{id}\" name=\"{name}\" code='{code}'>", KINDS[kind], &KINDS[kind][..1]));
        self.about(level + 1);
        if kind + 1 < KINDS.len() && level < DEEPEST {
            for _ in 0..2 + self.numbers.below(3) {
                if self.text.len() < self.size {
                    let inner = self.kind_in(kind);
                    self.place(inner, level + 1);
                }
            }
        } else {
            (0..self.numbers.below(4)).for_each(|_| self.farm(level + 1));
        }
        self.line(level, &format!("</{}>", KINDS[kind]));
    }
}

/// A little longer than a size: what is open then is closed.
pub fn of_size(size: usize) -> String {
    let mut gazetteer = Gazetteer { numbers: Numbers(3), text: String::with_capacity(size + 65536), size };
    gazetteer.line(1, "<?xml version=\"1.0\" encoding=\"UTF-8\"?>");
    gazetteer.line(1, "<!-- places within places -->");
    gazetteer.line(1, "<gazetteer>");
    while gazetteer.text.len() < size {
        gazetteer.place(0, 2);
    }
    gazetteer.line(1, "</gazetteer>");
    gazetteer.text
}

pub fn document() -> String {
    of_size(SIZE)
}
