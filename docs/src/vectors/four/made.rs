// Four clients by a generator: cases of the cut of one document, four at a time, where their lists and rooms are the clients'.

use super::{Client, Clients};
use crate::made::{batch, Case, Random};

pub fn some(random: &mut Random) -> Vec<Clients> {
    let cases = batch(random);
    let count = (cases.len() + 1) / 2;
    (0..count).map(|_| clients(&cases, random)).collect()
}

/// The document of one case, and the lists and rooms of this one and three others. At times a seat is unused.
fn clients(cases: &[Case], random: &mut Random) -> Clients {
    let first = &cases[random.below(cases.len())];
    let mut clients = [0; 4].map(|_| other(cases, random));
    clients[random.below(4)] = Client { list: first.list.clone(), room: first.room };
    Clients { doc: first.doc.clone(), clients }
}

/// A client of some case, or an unused seat.
pub fn other(cases: &[Case], random: &mut Random) -> Client {
    if random.one_in(6) {
        return Client { list: Vec::new(), room: random.pick(&[0, 5, 7, 9, 100]) };
    }
    let case = &cases[random.below(cases.len())];
    Client { list: case.list.clone(), room: case.room }
}
