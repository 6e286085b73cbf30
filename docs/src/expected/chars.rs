// Cases of characters: every code point, every byte at each place of a sequence, a fault at each place of texts of each length.
use crate::plain::chars as plain;

/// The bytes that the rule of UTF-8 makes of any number below 2^21, surrogates and numbers past the last code point too.
fn encode(c: u32) -> Vec<u8> {
    let later = |shift: u32| 0x80 | (c >> shift & 0x3F) as u8;
    match c {
        0..=0x7F => vec![c as u8],
        0x80..=0x7FF => vec![0xC0 | (c >> 6) as u8, later(0)],
        0x800..=0xFFFF => vec![0xE0 | (c >> 12) as u8, later(6), later(0)],
        _ => vec![0xF0 | (c >> 18) as u8, later(12), later(6), later(0)],
    }
}

fn class(c: u32) -> u8 {
    match char::from_u32(c) {
        Some(c) if plain::is_name_start(c) => 2,
        Some(c) if plain::is_name(c) => 1,
        _ => 0,
    }
}

fn is_name(s: &[u8]) -> bool {
    !s.is_empty() && plain::name(s, 0) == s.len()
}

fn borders() {
    println!("code point; a digit each: sequence, Char, class, a name, a name after a letter");
    let mut last = None;
    for c in 0..=0x110010 {
        let s = encode(c);
        let mut chars = std::str::from_utf8(&s).unwrap_or("").chars();
        let is_sequence = chars.next().map_or(false, |d| d as u32 == c) && chars.next().is_none();
        let is_allowed = plain::check(&s) == s.len();
        let names = (is_name(&s), is_name(&[b"a", s.as_slice()].concat()));
        let line = [is_sequence as u8, is_allowed as u8, class(c), names.0 as u8, names.1 as u8].iter().fold(0, |n, &x| n * 10 + x as u32);
        if last != Some(line) {
            println!("{c:04x} {line}");
        }
        last = Some(line);
    }
}

/// 31 times a sum and x, modulo 2^32.
pub fn sum(h: u32, x: usize) -> u32 {
    h.wrapping_mul(31).wrapping_add(x as u32)
}

/// Every byte at each place after a first byte, where else one of some second bytes and one of two tails stand: the sizes of what stands at
/// the front.
fn rows() {
    println!("first byte, and the sequences with each byte at each place after it");
    let mut last = 0;
    for a in 0..=255 {
        let mut next = 0;
        for place in 1..4 {
            for tail in [0x80, 0xBF] {
                for second in [0x00, 0x80, 0x8F, 0x90, 0x9F, 0xA0, 0xBF, 0xFF] {
                    for b in 0..=255 {
                        let mut s = [a, second, tail, tail];
                        s[place] = b;
                        next = sum(next, plain::point(&s, 0).map_or(0, |c| c.len_utf8()));
                    }
                }
            }
        }
        if next != last {
            println!("{a:02x} {next}");
        }
        last = next;
    }
}

pub fn hex(s: &[u8]) -> String {
    s.iter().map(|b| format!("{b:02x}")).collect()
}

/// 0 where all are characters, and else one more than the offset of the first fault.
pub fn checked(s: &[u8]) -> usize {
    let at = plain::check(s);
    if at == s.len() { 0 } else { at + 1 }
}

fn offsets() {
    println!("planted bytes, the check's answers, and with a control byte at the end");
    let ascii: Vec<u8> = (0..0x80u8).filter(|&b| plain::is_char(b as char)).collect();
    let kinds: [&[u8]; 18] = [
        b"\x80", b"\xC3", b"\xE2\x82", b"\xF0\x9F\x98",
        b"\x01", b"\xC0\x80", b"\xED\xA0\x80", b"\xEF\xBF\xBE", b"\xF4\x90\x80\x80",
        b"\x7F", b"\xC3\xA9", b"\xE2\x82\xAC", b"\xEF\xBF\xBD", b"\xF0\x9F\x98\x80",
        b"\xC3\xA9\x80", b"\xE2\x82\xAC\xE2\x82", b"\xF0\x9F\x98\x80\xED\xA0\x80", b"\xC3\xA9plain bytes\x01",
    ];
    for kind in kinds {
        let (mut alone, mut ended) = (0, 0);
        for n in 0..=200 {
            for at in 0..n {
                let mut text: Vec<u8> = ascii.iter().copied().cycle().take(n).collect();
                let fits = kind.len().min(n - at);
                text[at..at + fits].copy_from_slice(&kind[..fits]);
                alone = sum(alone, checked(&text));
                text[n - 1] = 1;
                ended = sum(ended, checked(&text));
            }
        }
        println!("{} {alone} {ended}", hex(kind));
    }
}

pub fn print() {
    borders();
    rows();
    offsets();
}
