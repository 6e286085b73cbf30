// Documents of some 4 MiB that are nearly all of one kind, with the names of the gazetteer: prose in few tags, records that are nearly all
// tags, and text that is mostly not ASCII.
use std::fmt::Write;

const SIZE: usize = 4 << 20;

const PROSE: &str = "The village lies on an old road near the river and has a small church, two mills and a market held each May. ";
const CYRILLIC: &str = "Деревня лежит на старой дороге у реки, в ней есть церковь, две мельницы и рынок каждый май. ";
const CHINESE: &str = "村子位于河边的老路上有一座小教堂两座磨坊和每年五月举行的集市。";

/// Places one behind the other, up to the size, in a commune of the gazetteer. Every other one is a parish, of which paths of the long list
/// keep the whole, and the others are nothing that a list names.
fn places(inner: impl Fn(usize) -> String) -> String {
    let mut text = String::from("<gazetteer><continent><country><region><province><district><commune>\n");
    let mut number = 0;
    while text.len() < SIZE {
        number += 1;
        let kind = ["parish", "manor"][number % 2];
        writeln!(text, "<{kind} id=\"{number}\" code='{}'>{}</{kind}>", 100 + number % 900, inner(number)).unwrap();
    }
    text + "</commune></district></province></region></country></continent></gazetteer>\n"
}

/// Places with a long note each.
fn notes(sentence: &str) -> String {
    places(|_| format!("<note type=\"text\">{}</note>", sentence.repeat(20)))
}

fn records() -> String {
    places(|number| {
        let (lat, lon, count) = (number * 13 % 100_000, number * 29 % 100_000, number * 7 % 90_000);
        let position = format!("<pos lat=\"47.{lat:05}\" lon=\"8.{lon:05}\"/>");
        format!("<name lang=\"fr\">Aar</name>{position}<pop year='1990'>{count}</pop>")
    })
}

pub fn documents() -> [(&'static str, String); 4] {
    [("prose", notes(PROSE)), ("records", records()), ("Cyrillic prose", notes(CYRILLIC)), ("Chinese prose", notes(CHINESE))]
}
