// Texts and packed forms by a generator: sound lists for a document, lists near a size, and damage; and the forms of the sound ones, with a
// byte replaced, a length one off, bytes put in, cut out or swapped.

use super::{pack, unpack, MOST};
use crate::calls::{case, made_by, room};
use crate::made::{damage, documents, limits, lists, Case, Random};

fn text(random: &mut Random) -> Vec<u8> {
    if random.one_in(8) {
        return limits::near(random).list;
    }
    let grown = documents::document(random);
    lists::list(random, &grown)
}

pub fn texts(random: &mut Random) -> Vec<Case> {
    let sound = text(random);
    let mut cases = Vec::new();
    for text in [&sound, &damage::list(&sound, 0, random), &damage::list(&sound, 0, random), &limits::too_large(&sound, random)] {
        let length = made_by(pack, b"", text, MOST).len();
        cases.push(case("", text, room(length, random)));
    }
    cases
}

pub fn forms(random: &mut Random) -> Vec<Case> {
    let sound = made_by(pack, b"", &text(random), MOST);
    let mut forms = vec![sound.clone()];
    if !sound.is_empty() {
        forms.extend((0..9).map(|_| hurt(&sound, random)));
    }
    if random.one_in(6) {
        forms.push(near(random));
    }
    let with_room = |form: Vec<u8>| {
        let length = made_by(unpack, b"", &form, MOST).len();
        case("", form, room(length, random))
    };
    forms.into_iter().map(with_room).collect()
}

/// A form of about as many steps in a line, lines, or bytes of text as there may be.
fn near(random: &mut Random) -> Vec<u8> {
    let line = |steps: usize, name: usize| {
        let step = [&[1, name as u8], "n".repeat(name).as_bytes()].concat();
        let line = [&[0, steps as u8], &step.repeat(steps)[..], b"\0"].concat();
        [&(line.len() as u16).to_be_bytes()[..], &line].concat()
    };
    let lines = match random.below(3) {
        0 => line(random.between(15, 18), 1),
        1 => line(1, 1).repeat(random.between(31, 34)),
        // 31 texts of 256 bytes and one of up to two more or less.
        _ => [line(1, 253).repeat(31), line(1, random.between(251, 255))].concat(),
    };
    [&b"\x01"[..], &lines].concat()
}

/// Half of it leaves the number of bytes as it is, so that all lengths may still be right.
fn hurt(form: &[u8], random: &mut Random) -> Vec<u8> {
    let mut bytes = form.to_vec();
    let at = random.below(bytes.len());
    match random.below(10) {
        0 => bytes[at] ^= 1 << random.below(8),
        1 => bytes[at] = bytes[at].wrapping_add(random.pick(&[1, 255])),
        2 => bytes[at] = random.pick(b"\0\x01\x02\x03\x04:*/a\"<&\n\x10\x11\x80\xff"),
        3 => {
            let other = random.below(bytes.len());
            bytes.swap(at, other);
        }
        4 => replace_letter(&mut bytes, random),
        5 => bytes.truncate(at),
        6 => drop(bytes.remove(at)),
        7 => bytes.insert(at, random.pick(b"\0\x01\x02:a")),
        8 => bytes.extend_from_slice(random.pick(&[&b"\0"[..], b"\0\x05\0\x01\0\0\0", b"\0\x05\x01\x01\x02\0\0", b"\0\0"])),
        _ => return damage::list(form, 0, random),
    }
    bytes
}

/// Some letter of a name or a value, by another character that may stand there or not.
fn replace_letter(bytes: &mut [u8], random: &mut Random) {
    let letters: Vec<usize> = (1..bytes.len()).filter(|&at| bytes[at].is_ascii_graphic()).collect();
    if !letters.is_empty() {
        bytes[random.pick(&letters)] = random.pick(b"ab:-1_ /\"<&'#");
    }
}
