// A case in readable form, with the second program's answer, for whoever hunts a difference. A line that begins with `|` is bytes, in which
// everything but printable ASCII stands as Rust would write it in a byte string; a line feed also ends the line.

use vectors::asked::{ask, line, second};
use vectors::made::Case;

pub fn show(case: &Case) {
    println!("list, {} bytes", case.list.len());
    bytes(&case.list);
    println!("document, {} bytes", case.doc.len());
    bytes(&case.doc);
    println!("room {}", case.room);
    let ([number, length, ..], out) = ask(case, second);
    println!("answer {}", line(case, second));
    if number == 0 {
        bytes(&out[..length as usize]);
    }
}

fn bytes(text: &[u8]) {
    for line in text.split_inclusive(|b| *b == b'\n') {
        let shown: String = line.iter().flat_map(|b| std::ascii::escape_default(*b)).map(char::from).collect();
        println!("| {shown}");
    }
}
