// Four clients in one reading, Q-14 of document 02. A case is a document and four clients, each with a list and a room; what it answers are
// the four numbers of each client and the four buffers.

mod made;
#[rustfmt::skip]
mod told;

pub use made::{other, some};
pub use told::all;

use crate::asked::{fresh, Four};
use crate::crc::crc32;
use crate::made::Random;

/// The seed of the generated cases, and how many there are at least.
const SEED: u64 = 20_140_001;
const LEAST: usize = 2_000;

#[derive(Clone)]
pub struct Client {
    pub list: Vec<u8>,
    pub room: usize,
}

#[derive(Clone)]
pub struct Clients {
    pub doc: Vec<u8>,
    pub clients: [Client; 4],
}

/// What a client gets back: its numbers, and its buffer afterwards.
pub type Got = (Four, Vec<u8>);

/// A case, and by hand what each client gets: its numbers, and the bytes written under 0.
pub struct Told {
    pub case: Clients,
    pub got: [(Four, Vec<u8>); 4],
}

/// A program: from four lists, a document and four buffers the four numbers of each client.
pub type Program = fn([&[u8]; 4], &[u8], [&mut [u8]; 4]) -> [Four; 4];

pub fn second(lists: [&[u8]; 4], doc: &[u8], outs: [&mut [u8]; 4]) -> [Four; 4] {
    second::four(lists, doc, outs).map(|n| [n.number, n.second, n.third, n.fourth])
}

pub fn asked(program: Program, case: &Clients) -> [Got; 4] {
    let mut outs = [0, 1, 2, 3].map(|seat| fresh(case.clients[seat].room));
    let [a, b, c, d] = &mut outs;
    let lists = [0, 1, 2, 3].map(|seat| &case.clients[seat].list[..]);
    let numbers = program(lists, &case.doc, [a, b, c, d]);
    let mut outs = outs.into_iter();
    numbers.map(|numbers| (numbers, outs.next().unwrap_or_default()))
}

/// What both programs give each client. A difference ends the run and shows the case.
pub fn both(other: Program, case: &Clients) -> [Got; 4] {
    let (found, expected) = (asked(other, case), asked(second, case));
    let numbers = |got: &[Got; 4]| [0, 1, 2, 3].map(|seat| got[seat].0);
    assert!(found == expected, "four: {:?}, but by the second program {:?}\n{}", numbers(&found), numbers(&expected), shown(case));
    found
}

pub fn by_hand() -> Vec<Clients> {
    all().into_iter().map(|told| told.case).collect()
}

pub fn generated() -> Vec<Clients> {
    let mut random = Random::new(SEED);
    let mut cases = Vec::new();
    while cases.len() < LEAST {
        cases.append(&mut some(&mut random));
    }
    cases
}

/// Whether the second program says what is told by hand of every case, down to each byte of the buffers; shows those where it does not.
pub fn agrees() -> bool {
    let wrong: Vec<Told> = all().into_iter().filter(|told| asked(second, &told.case) != after(told)).collect();
    for Told { case, got } in &wrong {
        println!("four by hand {:?}, but by the second program {}", [0, 1, 2, 3].map(|seat| got[seat].0), line(case));
        println!("{}", shown(case));
    }
    wrong.is_empty()
}

/// What is told, with the buffers as they have to be afterwards.
fn after(told: &Told) -> [Got; 4] {
    [0, 1, 2, 3].map(|seat| {
        let (numbers, bytes) = &told.got[seat];
        let mut out = fresh(told.case.clients[seat].room);
        out[..bytes.len()].copy_from_slice(bytes);
        (*numbers, out)
    })
}

/// The line of the answers: of each client the numbers and the sum of its buffer.
fn line(case: &Clients) -> String {
    let client = |(numbers, out): &Got| format!("{} {} {} {} {:08x}", numbers[0], numbers[1], numbers[2], numbers[3], crc32(out));
    asked(second, case).iter().map(client).collect::<Vec<String>>().join("; ")
}

/// How many of these cases there are, and the sum of their lines.
pub fn summary(kind: &str, cases: &[Clients]) -> String {
    let lines: Vec<String> = cases.iter().map(line).collect();
    format!("four {kind}: {} cases, {:08x}", cases.len(), crc32(lines.join("\n").as_bytes()))
}

fn shown(case: &Clients) -> String {
    let client = |client: &Client| format!("| b\"{}\", room {}\n", client.list.escape_ascii(), client.room);
    format!("{}| b\"{}\"", case.clients.iter().map(client).collect::<String>(), case.doc.escape_ascii())
}
