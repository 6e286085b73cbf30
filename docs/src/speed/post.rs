//! post: how long 1,000 documents of 2 KB take in one batch, in 1,000 single calls, and as one document of the same bytes; and in a batch
//! with no room to spare, where each is measured first. The one document has a log that suffices. By the library, as callers link it.
#[allow(dead_code)]
mod rounds;

use rounds::{cleared, medians, Work};

fn document(i: usize) -> Vec<u8> {
    let mut doc = format!("<place id=\"{i}\">").into_bytes();
    for k in 0.. {
        if doc.len() > 1980 {
            break;
        }
        doc.extend(format!("<part n=\"{k}\"><name>Part {k} of {i}</name><v>{}</v></part>", k * i).bytes());
    }
    doc.extend(b"</place>");
    doc
}

/// Two short paths, and 32 of 8 steps, as in Q-10.
fn lists() -> [(&'static str, Vec<u8>); 2] {
    let long = (0..32).map(|i| format!("//place/part/name/a{i}/b/c/d/e\n")).collect::<String>();
    [("2 paths", b"//part/v\n//name #\n".to_vec()), ("32 paths of 8 steps", long.into_bytes())]
}

fn main() {
    let documents: Vec<Vec<u8>> = (0..1000).map(document).collect();
    let batch = choughbell::bundle(documents.iter().map(Vec::as_slice));
    let one = [b"<all>".to_vec(), documents.concat(), b"</all>".to_vec()].concat();
    for (name, list) in lists() {
        let exact = choughbell::batch_of(&list, &batch).unwrap().bytes.len();
        let single = |out: &mut [u8]| documents.iter().map(|d| choughbell::cut(&list, d, out).number).sum::<u64>();
        let mut log = vec![0; 262_144];
        let mut works: Vec<Work> = vec![
            cleared(2 * batch.len(), |out| assert_eq!(choughbell::batch(&list, &batch, out).number, 0)),
            cleared(exact, |out| assert_eq!(choughbell::batch(&list, &batch, out).number, 0)),
            cleared(2 * batch.len(), |out| assert_eq!(single(out), 0)),
            cleared(2 * batch.len(), |out| assert_eq!(choughbell::cut_with(&list, &one, out, &mut log).number, 0)),
        ];
        println!("{} documents, {} bytes, by {name}", documents.len(), batch.len());
        let times = medians(&mut works);
        for (what, seconds) in ["one batch", "one batch, no room to spare", "single calls", "one document"].iter().zip(&times) {
            let rate = batch.len() as f64 / seconds / 1e6;
            println!("  {what}: {:.2} ms, {rate:.0} MB/s, {:.2} of the batch", seconds * 1e3, seconds / times[0]);
        }
    }
}
