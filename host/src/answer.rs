//! The answers of the library as Rust has them: what was written, or why nothing was. Each refusal has its number, its meaning in words and
//! its place. The words are those of document 01's table, and of document 02 for what it adds.
use crate::FourNumbers;
use std::error::Error;
use std::fmt;

/// Answer 0.
#[derive(Clone, Copy, PartialEq, Eq, Debug)]
pub struct Written {
    /// How many bytes at the front of the buffer are the cut.
    pub length: u64,
    /// How many elements the list selects, those inside a kept entry too.
    pub selected: u64,
    /// How many name tests were tried, over the whole document.
    pub name_tests: u64,
}

/// Answers 1 to 13. A line counts from 1, an offset from 0. Later versions can have more.
#[non_exhaustive]
#[derive(Clone, Copy, PartialEq, Eq, Debug)]
pub enum Refusal {
    /// 1: the list has over 8,192 bytes.
    ListTooLong,
    /// 2: a line of the list is malformed.
    ListMalformed { line: u64 },
    /// 3: a line of the list is too large, or it is line 33.
    ListTooLarge { line: u64 },
    /// 4: the document has over 16,777,216 bytes.
    DocumentTooLong,
    /// 5: something in the document is not UTF-8, or no character of XML.
    NotCharacter { offset: u64 },
    /// 6: the document has a type.
    DocumentType { offset: u64 },
    /// 7: an item is not well-formed, or not in its place. At the document's length: an element is open, or there is no root.
    NotWellFormed { offset: u64 },
    /// 8: an element is too deep, a name too long, or a tag has too many attributes.
    OverSize { offset: u64 },
    /// 9: the buffer is shorter than the cut.
    Short { needed: u64 },
    /// 10: the declaration names another encoding than UTF-8. It is looked at after 4 and before 5.
    OtherEncoding { offset: u64 },
    /// 11: bytes that are no batch. The version byte or a length, at an offset in the batch, is at fault. It is looked at after 3.
    BadBatch { offset: u64 },
    /// 12, of mending alone: no root tag is kept. The offset is that of the first fault.
    NoRoot { offset: u64 },
    /// 13: the input is the packed form of no sound list.
    NotPacked,
}

impl FourNumbers {
    /// The answer that the numbers stand for. Panics on a number that the library never gives.
    pub fn answer(self) -> Result<Written, Refusal> {
        let written = Written { length: self.second, selected: self.third, name_tests: self.fourth };
        Refusal::of(self.number, self.second).map_or(Ok(written), Err)
    }
}

impl Refusal {
    /// The refusal that a number and the second one stand for; under 0 there is none. Panics on another number.
    pub(crate) fn of(number: u64, second: u64) -> Option<Refusal> {
        Some(match number {
            0 => return None,
            1 => Refusal::ListTooLong,
            2 => Refusal::ListMalformed { line: second },
            3 => Refusal::ListTooLarge { line: second },
            4 => Refusal::DocumentTooLong,
            5 => Refusal::NotCharacter { offset: second },
            6 => Refusal::DocumentType { offset: second },
            7 => Refusal::NotWellFormed { offset: second },
            8 => Refusal::OverSize { offset: second },
            9 => Refusal::Short { needed: second },
            10 => Refusal::OtherEncoding { offset: second },
            11 => Refusal::BadBatch { offset: second },
            12 => Refusal::NoRoot { offset: second },
            13 => Refusal::NotPacked,
            number => panic!("{number} is no answer of the library"),
        })
    }

    /// The number, 1 to 13.
    pub fn number(self) -> u64 {
        match self {
            Refusal::ListTooLong => 1,
            Refusal::ListMalformed { .. } => 2,
            Refusal::ListTooLarge { .. } => 3,
            Refusal::DocumentTooLong => 4,
            Refusal::NotCharacter { .. } => 5,
            Refusal::DocumentType { .. } => 6,
            Refusal::NotWellFormed { .. } => 7,
            Refusal::OverSize { .. } => 8,
            Refusal::Short { .. } => 9,
            Refusal::OtherEncoding { .. } => 10,
            Refusal::BadBatch { .. } => 11,
            Refusal::NoRoot { .. } => 12,
            Refusal::NotPacked => 13,
        }
    }

    /// What the number means.
    pub fn meaning(self) -> &'static str {
        match self {
            Refusal::ListTooLong => "list over 8,192 bytes",
            Refusal::ListMalformed { .. } => "malformed line",
            Refusal::ListTooLarge { .. } => "line too large",
            Refusal::DocumentTooLong => "document over 16,777,216 bytes",
            Refusal::NotCharacter { .. } => "not a character",
            Refusal::DocumentType { .. } => "document type",
            Refusal::NotWellFormed { .. } => "not well-formed",
            Refusal::OverSize { .. } => "over a size",
            Refusal::Short { .. } => "output shorter than the cut",
            Refusal::OtherEncoding { .. } => "another encoding",
            Refusal::BadBatch { .. } => "not a batch",
            Refusal::NoRoot { .. } => "no root tag kept",
            Refusal::NotPacked => "not the packed form of a list",
        }
    }

    /// The line of the list at fault, under 2 and 3.
    pub fn line(self) -> Option<u64> {
        match self {
            Refusal::ListMalformed { line } | Refusal::ListTooLarge { line } => Some(line),
            _ => None,
        }
    }

    /// The offset in the document at fault, under 5 to 8, 10 and 12.
    pub fn offset(self) -> Option<u64> {
        match self {
            Refusal::NotCharacter { offset } | Refusal::DocumentType { offset } => Some(offset),
            Refusal::NotWellFormed { offset } | Refusal::OverSize { offset } => Some(offset),
            Refusal::OtherEncoding { offset } | Refusal::NoRoot { offset } => Some(offset),
            _ => None,
        }
    }

    /// The second number: the line, the offset or the length needed, or 0.
    pub fn second(self) -> u64 {
        match self {
            Refusal::Short { needed } => needed,
            Refusal::BadBatch { offset } => offset,
            _ => self.line().or_else(|| self.offset()).unwrap_or(0),
        }
    }
}

impl fmt::Display for Refusal {
    fn fmt(&self, f: &mut fmt::Formatter) -> fmt::Result {
        write!(f, "{}: {}", self.number(), self.meaning())?;
        match *self {
            Refusal::Short { needed } => write!(f, ", which has {needed} bytes"),
            Refusal::BadBatch { offset } => write!(f, ", at offset {offset} of the batch"),
            Refusal::ListMalformed { line } | Refusal::ListTooLarge { line } => write!(f, ", line {line} of the list"),
            _ => self.offset().map_or(Ok(()), |offset| write!(f, ", at offset {offset}")),
        }
    }
}

impl Error for Refusal {}

#[cfg(test)]
mod tests {
    use super::*;

    #[test]
    fn numbers_come_back_as_they_were() {
        for number in 1..=13 {
            let second = if [1, 4, 13].contains(&number) { 0 } else { 12 };
            let refusal = FourNumbers { number, second, third: 0, fourth: 0 }.answer().unwrap_err();
            assert_eq!((refusal.number(), refusal.second()), (number, second));
        }
    }

    #[test]
    fn refusals_in_words() {
        assert_eq!(Refusal::ListTooLong.to_string(), "1: list over 8,192 bytes");
        assert_eq!(Refusal::ListMalformed { line: 3 }.to_string(), "2: malformed line, line 3 of the list");
        assert_eq!(Refusal::OverSize { offset: 17 }.to_string(), "8: over a size, at offset 17");
        assert_eq!(Refusal::Short { needed: 21 }.to_string(), "9: output shorter than the cut, which has 21 bytes");
        assert_eq!(Refusal::OtherEncoding { offset: 3 }.to_string(), "10: another encoding, at offset 3");
        assert_eq!(Refusal::BadBatch { offset: 6 }.to_string(), "11: not a batch, at offset 6 of the batch");
        assert_eq!(Refusal::NotPacked.to_string(), "13: not the packed form of a list");
    }
}
