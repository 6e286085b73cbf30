// Cases of the generator, from seeds of its own, until so many have been tried; in each batch demand 3 too, on its first list and document.
// At the end a line for each number says how often it was the answer.
use crate::{narrow, same};
use vectors::made::{batch, narrower, Random};

/// A multiple of what is to be tried is said on the way.
const SAID: usize = 10;

pub fn run(cases: usize, seed: u64) {
    same::reached();
    let mut random = Random::new(seed);
    let (mut tried, mut narrowed, mut numbers) = (0, 0, [0usize; 11]);
    while tried < cases {
        let all = batch(&mut random);
        let wide = all.first().and_then(|first| Some((first, same::cut(&first.list, &first.doc)?.0)));
        if let Some((first, wide_cut)) = wide {
            narrowed += narrow::tried(&wide_cut, &narrower(&first.list, &mut random), &first.doc) as usize;
        }
        for case in all {
            let (answer, _) = same::both(&case.list, &case.doc, case.room);
            numbers[answer.number as usize] += 1;
            tried += 1;
            if tried % (cases / SAID).max(1) == 0 {
                println!("{tried} cases");
            }
        }
    }
    for (number, times) in numbers.iter().enumerate() {
        println!("answer {number}: {times}");
    }
    println!("{tried} cases and {narrowed} of demand 3 from seed {seed}: no difference");
}
