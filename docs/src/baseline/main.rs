// baseline FOLDER ANSWERS: the packed cases of a folder by the baseline, held against a file of answers. A line of answers has the number,
// the second and the third, perhaps more numbers that the baseline does not give, and last the digest of the buffer. Cases that differ are
// shown, the first few of them; then how many there were.
use std::fs;
use std::process::ExitCode;
use vectors::asked::fresh;
use vectors::crc::crc32;
use vectors::made::Case;
use vectors::pack::{read, PACKS};

const SHOWN: usize = 10;

fn main() -> ExitCode {
    let words: Vec<String> = std::env::args().skip(1).collect();
    let compared = match &words[..] {
        [folder, answers] => compared(folder, answers),
        _ => Err("baseline FOLDER ANSWERS".into()),
    };
    match compared {
        Ok((cases, 0)) => {
            println!("baseline: {cases} cases, all as expected");
            ExitCode::SUCCESS
        }
        Ok((cases, wrong)) => {
            println!("baseline: {wrong} of {cases} cases differ");
            ExitCode::from(1)
        }
        Err(why) => {
            eprintln!("{why}");
            ExitCode::from(2)
        }
    }
}

/// How many cases there are, and how many differ.
fn compared(folder: &str, answers: &str) -> Result<(usize, usize), String> {
    let text = fs::read_to_string(answers).map_err(|e| format!("{answers}: {e}"))?;
    let mut lines = text.lines();
    let (mut cases, mut wrong) = (0, 0);
    for pack in PACKS {
        if lines.next() != Some(pack) {
            return Err(format!("{answers}: no line {pack} where it should stand"));
        }
        for (place, case) in read(folder, pack)?.iter().enumerate() {
            let expected = lines.next().and_then(part).ok_or(format!("{answers}: no answer on {pack} {}", place + 1))?;
            let found = line(case);
            cases += 1;
            wrong += usize::from(found != expected);
            if found != expected && wrong <= SHOWN {
                println!("{pack} {}: {found}, not {expected}", place + 1);
            }
        }
    }
    match lines.next() {
        None => Ok((cases, wrong)),
        Some(more) => Err(format!("{answers}: {more} is of no case")),
    }
}

/// Of a line of answers what the baseline gives too.
fn part(line: &str) -> Option<String> {
    match line.split(' ').collect::<Vec<_>>()[..] {
        [number, second, third, .., digest] => Some([number, second, third, digest].join(" ")),
        _ => None,
    }
}

fn line(case: &Case) -> String {
    let mut out = fresh(case.room);
    let numbers = baseline::cut(&case.list, &case.doc, &mut out);
    format!("{} {} {} {:08x}", numbers.number, numbers.second, numbers.third, crc32(&out))
}
