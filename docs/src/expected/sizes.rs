// Cases of path lists at the sizes and past them.
use crate::plain::paths as plain;

/// Lists of a piece, another one n times and a last one, for five n.
fn sizes(row: usize, first: &[u8], piece: &[u8], n: usize, last: &[u8]) {
    for n in n..n + 5 {
        let (number, second) = plain::answer(&[first, &piece.repeat(n), last].concat());
        println!(" {row} {n} {number} {second}");
    }
}

/// In order: lines, from 0 and from 30 on; lines and a malformed one; steps; steps, malformed; bytes of a name; two bytes each of a name;
/// bytes after a line. Then bytes of a name behind the two longer kinds of step; steps of these kinds; a name with two colons; a name that
/// begins with one. Then bytes of a test's name, and of its value; two and three bytes each of a value; a value with `<` at its end; steps
/// and a test.
pub fn print() {
    println!("list, how often its piece stands there, and what is answered");
    sizes(0, b"", b"/a\n", 0, b"");
    sizes(1, b"", b"/a\n", 30, b"");
    sizes(2, b"", b"/a\n", 30, b"a\n");
    sizes(3, b"", b"/a", 14, b"\n");
    sizes(4, b"", b"/a", 14, b" \n");
    sizes(5, b"/", b"n", 253, b"\n");
    sizes(6, b"/n", "é".as_bytes(), 125, b"\n");
    sizes(7, b"/a\n", b"x", 8187, b"");
    sizes(8, b"/self::", b"n", 253, b"\n");
    sizes(9, b"/descendant-or-self::", b"n", 253, b"\n");
    sizes(10, b"", b"/self::a", 14, b" #\n");
    sizes(11, b"//b", b"/descendant-or-self::*", 13, b"\n");
    sizes(12, b"/", b"n", 252, b"::\n");
    sizes(13, b"/self:::", b"n", 252, b"\n");
    sizes(14, b"/a[@", b"n", 253, b"=\"x\"]\n");
    sizes(15, b"/a[@k=\"", b"n", 253, b"\"]\n");
    sizes(16, b"/a[@k=\"n", "é".as_bytes(), 125, b"\"] #\n");
    sizes(17, b"/*[@k=\"", "€".as_bytes(), 83, b"\"]\n");
    sizes(18, b"/a[@k=\"", b"n", 253, b"<\"]\n");
    sizes(19, b"", b"/a", 14, b"[@k=\"x\"]\n");
}
