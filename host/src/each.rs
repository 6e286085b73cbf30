//! How many elements each line of a list selects, by one call of the library for a line. The calls go to the cut by the whole list, which
//! is mostly shorter than the document: the list covers each of its lines, so that cutting the cut by one of them selects as many elements
//! as cutting the document does (`demand_3_checked` in crates/demands/proofs/Demands.antt), as long as the cut is within the size.
use crate::places;
use crate::report::Read;
use choughbell::DOCUMENT_LIMIT;

/// For each line of a sound list the number of elements.
pub fn each(list: &[u8], document: &[u8], cut: &[u8]) -> Vec<u64> {
    let from = if cut.len() <= DOCUMENT_LIMIT { cut } else { document };
    let lines = list.split_inclusive(|&b| b == b'\n');
    // A call never refuses: list and document were taken before.
    lines.map(|line| choughbell::cut_of(line, from).map_or(0, |cut| cut.selected)).collect()
}

/// The numbers, each before its line.
pub fn text(list: &[u8], numbers: &[u64]) -> String {
    let lines = list.split(|&b| b == b'\n').zip(numbers);
    lines.map(|(line, number)| format!("{number} {}\n", crate::shown::all(line))).collect()
}

/// A message for each line that selects nothing.
pub fn idle(list: &Read, numbers: &[u64]) -> Vec<String> {
    let lines = list.bytes.split(|&b| b == b'\n').zip(numbers).zip(1..);
    let idle = lines.filter(|((_, &number), _)| number == 0);
    idle.map(|((line, _), at): (_, u64)| format!("{}:{at}: \"{}\" selects nothing", list.name, places::quoted(line))).collect()
}

#[cfg(test)]
mod tests {
    use super::*;

    #[test]
    fn numbers_are_those_of_the_document() {
        let doc = b"<g><p k='1'><v><v/></v></p><q><v/></q><w a='1'><p k='1'/></w></g>";
        let list = b"//v #\n/g/p/v\n//q//v\n//p[@k=\"1\"]\n//*/self::w\n//x\n/g #\n//w/descendant-or-self::p\n";
        let numbers: Vec<u64> = list.split_inclusive(|&b| b == b'\n').map(|line| choughbell::cut_of(line, doc).unwrap().selected).collect();
        assert_eq!(numbers, [3, 1, 1, 2, 1, 0, 1, 1]);
        assert_eq!(each(list, doc, &choughbell::cut_of(list, doc).unwrap().bytes), numbers);
        let bare = b"//v\n//p[@k=\"1\"]\n//w/p\n//q\n";
        let cut = choughbell::cut_of(bare, doc).unwrap().bytes;
        assert_eq!(each(bare, doc, &cut), [3, 2, 1, 1]);
        assert_eq!(each(b"", doc, &cut), [0; 0]);
    }

    #[test]
    fn lines_are_named() {
        let list = Read::whole("a.lst".to_string(), b"//v\n//x #\n".to_vec());
        assert_eq!(text(&list.bytes, &[3, 0]), "3 //v\n0 //x #\n");
        assert_eq!(idle(&list, &[3, 0]), ["a.lst:2: \"//x #\" selects nothing"]);
    }
}
