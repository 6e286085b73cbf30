// One call of both programs, on buffers that hold the same bytes before it. What they say, all four numbers, and what they leave has to be
// the same, and the cut within the length that Q-13 of document 02 promises. The plain engine is called too: its three numbers and its
// whole buffer have to be the same again.
use second::Numbers;
use vectors::asked::fresh;

/// What both programs answer, and what both leave in a buffer of so many bytes; or how they differ.
pub fn tried(list: &[u8], doc: &[u8], room: usize) -> Result<(Numbers, Vec<u8>), String> {
    let (mut ours, mut theirs) = (fresh(room), fresh(room));
    let found = choughbell::cut(list, doc, &mut ours);
    let found = Numbers { number: found.number, second: found.second, third: found.third, fourth: found.fourth };
    let expected = second::cut(list, doc, &mut theirs);
    if found != expected {
        return Err(format!("the library says {found:?}, the second program {expected:?}"));
    }
    if ours != theirs {
        let at = ours.iter().zip(&theirs).position(|(a, b)| a != b);
        return Err(format!("under {found:?} the buffers differ at {at:?}"));
    }
    plainly(list, doc, found, &theirs)?;
    if is_long(found, doc) {
        return Err(format!("{found:?} is a longer cut than {} bytes may have", doc.len()));
    }
    Ok((found, ours))
}

/// The plain engine tries each step of each path at each element anew: where that would take minutes, it is left out.
const TRIED: usize = 1 << 35;

/// Whether the plain engine answers the same three numbers and leaves the same bytes.
fn plainly(list: &[u8], doc: &[u8], expected: Numbers, left: &[u8]) -> Result<(), String> {
    if list.len() * doc.len() > TRIED {
        return Ok(());
    }
    let mut out = fresh(left.len());
    let found = choughbell::plain(list, doc, &mut out);
    if (found.number, found.second, found.third) != (expected.number, expected.second, expected.third) {
        return Err(format!("the plain engine says {found:?}, the second program {expected:?}"));
    }
    if out != left {
        return Err(format!("under {found:?} the plain engine leaves other bytes"));
    }
    Ok(())
}

/// "a cut of an accepted document of n bytes has at most 2 × n − 1 bytes": under 9 too, where the second number is the length needed.
fn is_long(answer: Numbers, doc: &[u8]) -> bool {
    [0, 9].contains(&answer.number) && answer.second as usize > longest(doc)
}

fn longest(doc: &[u8]) -> usize {
    (2 * doc.len()).saturating_sub(1)
}

/// One empty tag has a cut of that length.
pub fn reached() {
    let (answer, bytes) = both(b"", b"<g/>", longest(b"<g/>"));
    assert_eq!((answer.number, bytes.as_slice()), (0, &b"<g></g>"[..]));
}

/// What both answer and leave, where a difference ends the run and shows the case, if it is small.
pub fn both(list: &[u8], doc: &[u8], room: usize) -> (Numbers, Vec<u8>) {
    tried(list, doc, room).unwrap_or_else(|difference| {
        let doc = if doc.len() < 4096 { String::from_utf8_lossy(doc).into_owned() } else { format!("{} bytes", doc.len()) };
        panic!("{difference}\nlist:\n{}\ndocument:\n{doc}\nroom: {room}", String::from_utf8_lossy(list));
    })
}

/// The cut and the number of elements selected, where there is one. There is room for the longest.
pub fn cut(list: &[u8], doc: &[u8]) -> Option<(Vec<u8>, u64)> {
    let (answer, mut bytes) = both(list, doc, longest(doc));
    assert_ne!(answer.number, 9, "no room for the longest cut");
    bytes.truncate(answer.second as usize);
    Some((bytes, answer.third)).filter(|_| answer.number == 0)
}
