// The filters that are compared, behind one signature: the library as the toolchain compiles it, with a log that is lent, as the command
// does it, and with its own; its source read as Rust, with a log that is lent; and the baseline. And the plain engine, apart from these.
use crate::ours::exported::choughbell_cut_with;

/// The number, the second and the third, of a list, a document and a buffer.
pub type Filter = fn(&[u8], &[u8], &mut [u8]) -> [u64; 3];

pub const FILTERS: [(&str, Filter); 4] = [("ours", library), ("own log", own), ("as Rust", source), ("baseline", baseline)];

/// A log of a megabyte or less, from the heap for each call, as the crate for Rust has it.
fn log(doc: &[u8]) -> Vec<u64> {
    vec![0; 131_072.min(doc.len() / 2)]
}

pub fn library(list: &[u8], doc: &[u8], out: &mut [u8]) -> [u64; 3] {
    let numbers = choughbell::cut_with(list, doc, out, &mut log(doc));
    [numbers.number, numbers.second, numbers.third]
}

fn own(list: &[u8], doc: &[u8], out: &mut [u8]) -> [u64; 3] {
    let numbers = choughbell::cut(list, doc, out);
    [numbers.number, numbers.second, numbers.third]
}

fn source(list: &[u8], doc: &[u8], out: &mut [u8]) -> [u64; 3] {
    let numbers = choughbell_cut_with(list, doc, out, &mut log(doc));
    [numbers.number, numbers.second, numbers.third]
}

pub fn baseline(list: &[u8], doc: &[u8], out: &mut [u8]) -> [u64; 3] {
    let numbers = baseline::cut(list, doc, out);
    [numbers.number, numbers.second, numbers.third]
}

pub fn plain(list: &[u8], doc: &[u8], out: &mut [u8]) -> [u64; 3] {
    let numbers = choughbell::plain(list, doc, out);
    [numbers.number, numbers.second, numbers.third]
}

/// More than a cut can have.
pub fn room(doc: &[u8]) -> usize {
    2 * doc.len()
}

/// The cut and the number of elements selected, on which all filters have to agree, in every byte of the buffer.
pub fn agreed(list: &str, doc: &[u8]) -> (Vec<u8>, u64) {
    let mut cuts = FILTERS.iter().map(|(what, filter)| {
        let mut out = vec![0xFF; room(doc)];
        let numbers = filter(list.as_bytes(), doc, &mut out);
        assert_eq!(numbers[0], 0, "{what} refuses by {list}");
        (numbers, out)
    });
    let (numbers, mut out) = cuts.next().unwrap();
    assert!(cuts.all(|other| other.0 == numbers && other.1 == out), "different cuts by {list}");
    out.truncate(numbers[1] as usize);
    (out, numbers[2])
}
