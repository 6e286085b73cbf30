// Four clients in one reading, Q-14 of document 02: the library beside the second program. Also, that a client gets what a single call of
// the library gives it, and gets it again when the other three have other lists and buffers.
use vectors::asked::{fresh, Four};
use vectors::four::{both, by_hand, generated, other, some, Client, Clients, Got};
use vectors::made::{batch, Random};

fn library(lists: [&[u8]; 4], doc: &[u8], outs: [&mut [u8]; 4]) -> [Four; 4] {
    choughbell::four(lists, doc, outs).map(|answer| [answer.number, answer.second, answer.third, answer.fourth])
}

pub fn packs() {
    for (kind, cases) in [("by hand", by_hand()), ("by the generator", generated())] {
        cases.iter().for_each(|case| drop(both(library, case)));
        println!("four {kind}: {} cases, no difference", cases.len());
    }
}

pub fn fuzz(cases: usize, seed: u64) {
    let mut random = Random::new(seed);
    let mut tried = 0;
    while tried < cases {
        let others = batch(&mut random);
        for case in some(&mut random) {
            let got = both(library, &case);
            let seat = random.below(4);
            assert!(alone(&case.doc, &case.clients[seat]) == got[seat], "a client gets something else alone");
            let clients = [0, 1, 2, 3].map(|at| if at == seat { case.clients[at].clone() } else { other(&others, &mut random) });
            assert!(both(library, &Clients { doc: case.doc, clients })[seat] == got[seat], "a client depends on others");
            tried += 1;
        }
    }
    println!("four: {tried} cases from seed {seed}, no difference");
}

/// By a call made for it alone.
fn alone(doc: &[u8], client: &Client) -> Got {
    let mut out = fresh(client.room);
    let answer = choughbell::cut(&client.list, doc, &mut out);
    ([answer.number, answer.second, answer.third, answer.fourth], out)
}
