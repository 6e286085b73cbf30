// The calls beside the cut: for each its cases by hand, with what they have to answer, its generator, and the second program. A case has
// two inputs and a room as that of a cut has; what the two are is told where the call is. Here is what the calls share: the check of what
// is told by hand, the cases of a call as a pack and its answers, and the second program held against another on them.

use crate::asked::{fresh, Four, Program};
use crate::batch::BATCH;
use crate::covers::COVERS;
use crate::crc::crc32;
use crate::made::{Case, Random};
use crate::mend::MEND;
use crate::packed::{PACK, UNPACK};
use crate::rows::ROWS;

/// A call, and all that it is tried on.
pub struct Call {
    pub name: &'static str,
    /// How many numbers it hands back. The others of the four are 0.
    pub numbers: usize,
    pub second: Program,
    pub told: fn() -> Vec<Told>,
    /// Some cases that are alike.
    pub made: fn(&mut Random) -> Vec<Case>,
    /// The seed of its generated cases, and how many there are at least.
    pub seed: u64,
    pub least: usize,
}

/// Every call that has cases.
pub const CALLS: &[&Call] = &[&BATCH, &PACK, &UNPACK, &COVERS, &MEND, &ROWS];

/// A case, and by hand: its numbers, and the bytes written under 0.
#[derive(Clone)]
pub struct Told {
    pub case: Case,
    pub numbers: Four,
    pub bytes: Vec<u8>,
}

impl Told {
    /// Answer 0, with a room that is a little longer than what is written. Its second number is the length of the bytes.
    pub fn kept(one: impl AsRef<[u8]>, other: impl AsRef<[u8]>, bytes: impl AsRef<[u8]>, third: u64, fourth: u64) -> Told {
        let bytes = bytes.as_ref().to_vec();
        let length = bytes.len();
        Told { case: case(one, other, length + 5), numbers: [0, length as u64, third, fourth], bytes }
    }

    /// Any answer that writes nothing.
    pub fn bare(one: impl AsRef<[u8]>, other: impl AsRef<[u8]>, numbers: Four) -> Told {
        Told { case: case(one, other, 40), numbers, bytes: Vec::new() }
    }

    pub fn refused(one: impl AsRef<[u8]>, other: impl AsRef<[u8]>, number: u64, second: usize) -> Told {
        Told::bare(one, other, [number, second as u64, 0, 0])
    }

    /// The same in a buffer of so many bytes.
    pub fn room(mut self, room: usize) -> Told {
        self.case.room = room;
        self
    }

    /// The same where there is room, and with just room enough; and with one byte less and with none, which is 9 with the length needed.
    /// What is refused is so in a large room, a small one and in none.
    pub fn in_rooms(self) -> Vec<Told> {
        let Told { case: Case { list, doc, room }, numbers, bytes } = self;
        let length = bytes.len();
        let rooms = if numbers[0] == 0 { vec![room, length, length.saturating_sub(1), 0] } else { vec![room, 1, 0] };
        let told = |room: usize| match numbers[0] == 0 && room < length {
            true => Told::refused(&list, &doc, 9, length).room(room),
            false => Told { case: case(&list, &doc, room), numbers, bytes: bytes.clone() },
        };
        rooms.into_iter().map(told).collect()
    }
}

pub fn case(one: impl AsRef<[u8]>, other: impl AsRef<[u8]>, room: usize) -> Case {
    Case { list: one.as_ref().to_vec(), doc: other.as_ref().to_vec(), room }
}

/// A room that is mostly enough for so many bytes.
pub fn room(length: usize, random: &mut Random) -> usize {
    match random.below(12) {
        0 => 0,
        1 => length.saturating_sub(1),
        2 => random.between(0, length),
        3..=5 => length,
        6 => length + 1,
        _ => length + random.between(2, 60),
    }
}

/// What the program writes where it has this much room; nothing where it refuses.
pub fn made_by(program: Program, one: &[u8], other: &[u8], most: usize) -> Vec<u8> {
    let mut out = vec![0; most];
    let [number, length, ..] = program(one, other, &mut out);
    out.truncate(if number == 0 { length as usize } else { 0 });
    out
}

impl Call {
    /// The cases by hand.
    pub fn by_hand(&self) -> Vec<Case> {
        (self.told)().into_iter().map(|told| told.case).collect()
    }

    /// The cases by the generator from the call's own seed.
    pub fn generated(&self) -> Vec<Case> {
        let mut random = Random::new(self.seed);
        let mut cases = Vec::new();
        while cases.len() < self.least {
            cases.append(&mut (self.made)(&mut random));
        }
        cases
    }

    /// Whether the second program says what is told by hand of every case, down to each byte of the buffer; shows those where it does not.
    pub fn agrees(&self) -> bool {
        let wrong: Vec<Told> = (self.told)().into_iter().filter(|told| !self.is_as_told(told)).collect();
        for Told { case, numbers, .. } in &wrong {
            println!("{} by hand {numbers:?}, but by the second program {}", self.name, self.line(case));
            println!("{}", shown(case));
        }
        wrong.is_empty()
    }

    fn is_as_told(&self, told: &Told) -> bool {
        let mut after = fresh(told.case.room);
        after[..told.bytes.len()].copy_from_slice(&told.bytes);
        asked(self.second, &told.case) == (told.numbers, after)
    }

    /// The line of the answers for this case: its numbers and the sum of the whole buffer.
    pub fn line(&self, case: &Case) -> String {
        let (numbers, out) = asked(self.second, case);
        let numbers: Vec<String> = numbers[..self.numbers].iter().map(u64::to_string).collect();
        format!("{} {:08x}", numbers.join(" "), crc32(&out))
    }

    /// How many of these cases there are, in all and by number, and the sum of their lines.
    pub fn summary(&self, kind: &str, cases: &[Case]) -> String {
        let lines: Vec<String> = cases.iter().map(|case| self.line(case)).collect();
        let number = |line: &String| line.split(' ').next().map_or(0, |number| number.parse().unwrap_or(0));
        let of = |wanted: usize| lines.iter().filter(|line| number(line) == wanted).count();
        let by_number: Vec<String> = (0..14).filter(|&n| of(n) > 0).map(|n| format!("{n}: {}", of(n))).collect();
        let sum = crc32(lines.join("\n").as_bytes());
        format!("{} {kind}: {} cases, {sum:08x}; {}", self.name, cases.len(), by_number.join(", "))
    }

    /// What both programs answer and leave. A difference ends the run and shows the case.
    pub fn both(&self, other: Program, case: &Case) -> (Four, Vec<u8>) {
        let (found, expected) = (asked(other, case), asked(self.second, case));
        let numbers = format!("{}: {:?}, but by the second program {:?}", self.name, found.0, expected.0);
        assert!(found.0 == expected.0, "{numbers}\n{}", shown(case));
        let at = found.1.iter().zip(&expected.1).position(|(a, b)| a != b);
        assert!(at.is_none(), "{}: under {:?} the buffers differ at {at:?}\n{}", self.name, found.0, shown(case));
        found
    }

    /// Both programs on all cases by hand and by the generator.
    pub fn on_all(&self, other: Program) {
        for (kind, cases) in [("by hand", self.by_hand()), ("by the generator", self.generated())] {
            cases.iter().for_each(|case| drop(self.both(other, case)));
            println!("{} {kind}: {} cases, no difference", self.name, cases.len());
        }
    }

    /// Both programs on so many cases of the generator, and what else is asked of each, with its answer.
    pub fn fuzz(&self, other: Program, count: usize, seed: u64, also: impl Fn(&Case, Four, &[u8], &mut Random)) {
        let mut random = Random::new(seed);
        let (mut tried, mut numbers) = (0, [0usize; 14]);
        while tried < count {
            for case in (self.made)(&mut random) {
                let (answer, out) = self.both(other, &case);
                also(&case, answer, &out, &mut random);
                numbers[answer[0] as usize] += 1;
                tried += 1;
            }
        }
        let by_number: Vec<String> = (0..14).filter(|&n| numbers[n] > 0).map(|n| format!("{n}: {}", numbers[n])).collect();
        println!("{}: {tried} cases from seed {seed}, no difference; {}", self.name, by_number.join(", "));
    }
}

/// The program's numbers, and the buffer after the call.
fn asked(program: Program, case: &Case) -> (Four, Vec<u8>) {
    let mut out = fresh(case.room);
    (program(&case.list, &case.doc, &mut out), out)
}

/// A case in readable form, where it is not long.
pub fn shown(case: &Case) -> String {
    let part = |bytes: &[u8]| match bytes.len() < 4_096 {
        true => format!("b\"{}\"", bytes.escape_ascii()),
        false => format!("{} bytes", bytes.len()),
    };
    format!("| {}\n| {}\n| room {}", part(&case.list), part(&case.doc), case.room)
}
