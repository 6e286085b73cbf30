//! What each number means and what to do about it: the answers 0 to 13, and the exit statuses from 20 on. A line with two blanks before it
//! is a command; tests/explained.sh runs each as it stands.

/// The text on a number, as it is written on the command line.
pub fn text(number: &[u8]) -> Option<&'static str> {
    TEXTS.iter().find(|(name, ..)| name.as_bytes() == number).map(|&(.., text)| text)
}

/// A line for each number.
pub fn all() -> String {
    let lines: String = TEXTS.iter().map(|(number, meaning, _)| format!("{number:>2}  {meaning}\n")).collect();
    lines + "choughbell explain NUMBER says what to do\n"
}

/// Each number, its meaning in short, and its text.
const TEXTS: [(&str, &str, &str); 19] = [
    ("0", "written, sound or covered", ZERO),
    ("1", "list over 8,192 bytes", ONE),
    ("2", "malformed line", TWO),
    ("3", "line too large, or line 33", THREE),
    ("4", "document over 16,777,216 bytes", FOUR),
    ("5", "not UTF-8, or not a character of XML", FIVE),
    ("6", "document type", SIX),
    ("7", "not well-formed", SEVEN),
    ("8", "over a size", EIGHT),
    ("9", "output shorter than the cut", NINE),
    ("10", "another encoding is declared", TEN),
    ("11", "not a batch", ELEVEN),
    ("12", "no root tag kept", TWELVE),
    ("13", "not the packed form of a list", THIRTEEN),
    ("20", "a narrow line is not covered", UNCOVERED),
    ("64", "wrong usage", USAGE),
    ("66", "no input", NO_INPUT),
    ("73", "no output", CANT_CREATE),
    ("74", "reading or writing failed", IO),
];

const ZERO: &str = "\
0: written. The second number is the length of the cut, the third how many elements
the list selects, those inside a kept entry too. The fourth is how many name tests were
tried: one for each element and each step of each line that could stand there after the
steps before it. It is at most elements times steps.
Under `check` 0 says that the document is sound; the other numbers are 0. Under `mend` the
third is how many bytes are kept, the fourth how many end tags are added. Under `rows` the
second is the length of the table, and there is no fourth.
";

const ONE: &str = "\
1: the list has over 8,192 bytes. Nothing of it was judged.
A list has at most 32 lines, so such a list is mostly something else: see that LIST is
not the document. Else shorten it: // and * stand for many paths.
";

const TWO: &str = "\
2: a line of the list is malformed; the second number is the line, from 1.
A line is one or more steps, behind the last perhaps a test, [@name=\"value\"], then perhaps
one space and #. A step is / (child), // (descendant), /self:: (the element itself) or
/descendant-or-self:: (it or any under it), and then * or a name without ::. A value has
no \", < or & and nothing below U+0020. There are no other axes, tests or blanks, no empty
lines and no comments; every line, the last too, ends in a line feed, no carriage return.
";

const THREE: &str = "\
3: a line of the list is too large, or it is line 33; the second number is the line.
A list has at most 32 lines, a line 16 steps, a name 255 bytes, the value in a test 255
bytes, counted in UTF-8. Repeated lines count.
Name less: // passes over any number of levels, * stands for any name. Or cut once by each
half of the list; that makes two documents, to be handed on as two: nothing joins them
here. A shorter list keeps all that the halves keep if it covers both:
  head -n 32 long.lst > half1.lst
  tail -n +33 long.lst > half2.lst
  choughbell covers --narrow half1.lst --wide short.lst
  choughbell covers --narrow half2.lst --wide short.lst
";

const FOUR: &str = "\
4: the document has over 16,777,216 bytes. Nothing of it was judged.
Split it between two children of the root. Paths begin at the root: so give each part the
root's start tag, as it stands there, and its end tag. Cut the parts by one list, and join
the cuts, without the root's tags in between. Where the root is <g>, of 3 bytes, its end
tag has 4, and line 3 ends with a child of it:
  { head -n 3 master.xml; printf '</g>'; } > part1.xml
  { printf '<g>'; tail -n +4 master.xml; } > part2.xml
  choughbell batch -l short.lst -d cuts part1.xml part2.xml
  { head -c -4 cuts/part1.xml; tail -c +4 cuts/part2.xml; } > cut.xml
That is the cut of the whole. A split elsewhere is answered by 7. If the list selects the
root, its tag comes with its attributes, and more bytes than 3 are left out.
";

const FIVE: &str = "\
5: the document is not in UTF-8, or has a character that XML does not allow; the
second number is the offset where the first bad sequence begins.
A file that begins with FF FE or FE FF is UTF-16. This converts it, its declaration too:
  xmllint --encode UTF-8 utf16.xml > new.xml
Else its declaration says UTF-8 or nothing, and the bytes are of another encoding, which
you have to know. This converts them and leaves the declaration, which is right then:
  iconv -f WINDOWS-1252 -t UTF-8 old.xml > new.xml
XML has no control characters but tab, line feed and carriage return, and no U+FFFE and
U+FFFF: these have to be taken out where the document is made.
";

const SIX: &str = "\
6: the document has a type, <!DOCTYPE; the second number is its offset.
Documents with a type are not taken, since a type can declare entities and defaults.
This takes the type out, and writes out the entities and the attributes that it declares:
  xmllint --nonet --noent --dtdattr --dropdtd --encode UTF-8 typed.xml > new.xml
Only for files that you trust: entities can name other files, which are then read into the
document, and can grow very large. White space in tags and how references are written may
change. A path # keeps the entries of new.xml byte for byte, not those of typed.xml.
";

const SEVEN: &str = "\
7: the document is not well-formed XML 1.0; the second number is the offset of the
first item at fault. At the length of the document: an element is still open, or there
is no root. Mend the document there: end tags that match, values in quotes, no attribute
twice, & and < written &amp; and &lt;, outside the root only comments and instructions.
";

const EIGHT: &str = "\
8: the document is over a size; the second number is the offset of the tag.
Elements stand at most 64 deep, the root being 1; names of elements and attributes have
at most 255 bytes, counted in UTF-8; a tag has at most 32 attributes.
";

const NINE: &str = "\
9: the output is shorter than the cut; the second number is the length needed.
This answer is for programs that call the library with a buffer of their own: call again
with one that long. A cut of a document of n bytes has at most 2n - 1, as is proved. The
command takes as much, so it always has room enough. The table of `rows` may be far longer
than its document: there 9 says that there is no memory for it. Select less, and call
again for the rest.
";

const TEN: &str = "\
10: the declaration of the document names another encoding than UTF-8; the second
number is its offset: 0, or 3 behind a byte order mark of UTF-8.
This converts the document, its declaration too:
  xmllint --encode UTF-8 latin.xml > new.xml
iconv leaves the declaration as it is: then write UTF-8 there, or take the encoding out.
Do only that where the bytes are UTF-8 already and the declaration alone is wrong, as
they seem to be behind a byte order mark.
";

const ELEVEN: &str = "\
11: the bytes are no batch; the second number is the offset of what is at fault: 0, the
version byte, which must be 1, or the batch is empty or has over 67,108,864 bytes; else a
length that is cut short or runs past the end. A length has four bytes, the highest first.
Nothing was cut. See that the file is a batch and whole; with -d, batch takes documents.
";

const THIRTEEN: &str = "\
13: the input is not the packed form of a sound list; the second number is 0.
There is one packed form of each list, and every byte of it is looked at: the version 1,
each line's length, its mark, kinds, names and tests, and that nothing follows. A list
that could not be written as text, as one over 8,192 bytes, has none. See that the file
is a packed list and came over whole. This makes it anew from the text:
  choughbell pack short.lst -o short.bin
";

const UNCOVERED: &str = "\
20: under `covers`: both lists are sound, and a path of the narrow list is covered by
none of the wide list, or only by one without the mark that it has. The lines are named.
Cut by the narrow list from the master, or add what covers these lines to the wide list.
";

const TWELVE: &str = "\
12: of mending alone: no root tag is kept, so there is nothing to mend; the second number
is the offset of the first fault. What follows a bad sequence is cut off first, and then
the offset is that of the fault found in what is left, at most its length.
The document stops before its root is whole, or something else stands before the root:
see that it is the right file, or send for it again.
";

const USAGE: &str = "\
64: wrong usage. The words of the command line don't go together; nothing was read.
choughbell --help has them all.
";

const NO_INPUT: &str = "\
66: the list or the document can't be opened, or is a directory, or is the standard input
and that is closed.
See that the name is right and that you may read the file.
";

const CANT_CREATE: &str = "\
73: the output can't be created. What was there is as it was.
OUTPUT must not be a directory, you must be allowed to write it where it exists, and a
file must fit beside it, since the cut is written there first and then takes its name. In
a folder that you may not write, over another's file in a sticky folder, or over a file
that is mounted by itself, that can't be done. Into such a file itself goes
  choughbell cut -l short.lst whole.xml > mounted.xml
which begins by losing what the file holds, also where the document is refused then.
";

const IO: &str = "\
74: reading or writing failed: a full disk, a broken pipe, a standard output that is
closed. An output that is a regular file is as it was.
";

#[cfg(test)]
mod tests {
    use super::*;

    #[test]
    fn each_text_begins_with_its_number_and_is_short() {
        for (number, _, text) in TEXTS {
            assert!(text.starts_with(&format!("{number}: ")), "{number}");
            assert!((2..=12).contains(&text.lines().count()), "{number}");
            assert!(text.lines().all(|line| line.len() <= 90), "{number}");
        }
    }
}
