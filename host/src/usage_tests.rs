//! Command lines, and what they ask for.
use super::*;
use std::path::PathBuf;

fn asked(words: &[&str]) -> Result<Request, String> {
    read(words.iter().map(OsString::from))
}

fn file(name: &str) -> Source {
    Source::File(PathBuf::from(name))
}

/// What a command line of `cut` asks for: the list, the document, the output.
fn cut_of(words: &[&str]) -> (Source, Source, Option<Sink>) {
    match asked(words) {
        Ok(Request::Task(Task { paths: Paths { list: Some(list), .. }, document, output, .. })) => (list, document, output),
        other => panic!("{other:?}"),
    }
}

#[test]
fn options_have_four_forms() {
    let expected = (file("a"), file("m"), Some(Sink::File(PathBuf::from("o"))));
    assert_eq!(cut_of(&["cut", "-l", "a", "m", "-o", "o"]), expected);
    assert_eq!(cut_of(&["cut", "-la", "-oo", "m"]), expected);
    assert_eq!(cut_of(&["cut", "--list", "a", "--output", "o", "m"]), expected);
    assert_eq!(cut_of(&["cut", "m", "--list=a", "--output=o"]), expected);
    assert_eq!(cut_of(&["cut", "--list=a", "-oo", "--", "m"]), expected);
    assert_eq!(cut_of(&["cut", "-la=b", "--", "-x"]), (file("a=b"), file("-x"), Some(Sink::Standard)));
}

#[test]
fn standard_input_and_output_have_names() {
    assert_eq!(cut_of(&["cut", "-l", "a"]), (file("a"), Source::Standard, Some(Sink::Standard)));
    assert_eq!(cut_of(&["cut", "-l-", "m", "-o-"]), (Source::Standard, file("m"), Some(Sink::Standard)));
    assert_eq!(cut_of(&["cut", "-la", "/dev/stdin", "-o/dev/stdout"]), (file("a"), Source::Standard, Some(Sink::Standard)));
    assert_eq!(cut_of(&["cut", "-la", "/dev/fd/0", "-o/proc/self/fd/1"]), (file("a"), Source::Standard, Some(Sink::Standard)));
    assert_eq!(cut_of(&["cut", "-l/dev/fd/3", "m", "-o/dev/stderr"]), (file("/dev/fd/3"), file("m"), Some(Sink::Stream(2))));
    assert_eq!(cut_of(&["cut", "-la", "--count"]), (file("a"), Source::Standard, None));
}

#[test]
fn a_list_is_packed_and_back() {
    let packing = |words: &[&str]| match asked(words) {
        Ok(Request::Packing(packing)) => packing,
        other => panic!("{other:?}"),
    };
    let expected = Packing { back: false, list: file("a"), output: Sink::Standard, quiet: false, json: false };
    assert_eq!(packing(&["pack", "a"]), expected);
    let expected = Packing { back: true, list: Source::Standard, output: Sink::File(PathBuf::from("o")), quiet: true, json: false };
    assert_eq!(packing(&["unpack", "-q", "-oo", "-"]), expected);
    let packed = |words: &[&str]| match asked(words) {
        Ok(Request::Task(Task { paths, .. })) => paths.packed,
        Ok(Request::Batch(post)) => post.paths.packed,
        other => panic!("{other:?}"),
    };
    assert!(packed(&["cut", "--packed", "-la"]) && packed(&["batch", "-la", "--packed"]) && !packed(&["cut", "-la"]));
    assert!(matches!(asked(&["covers", "--packed", "--narrow=n", "--wide=w"]), Ok(Request::Covers(Asked { packed: true, .. }))));
}

#[test]
fn names_are_bytes() {
    let words = [&b"check"[..], b"\xFF.xml"].map(|word| OsString::from_vec(word.to_vec()));
    let document = Source::File(PathBuf::from(OsString::from_vec(b"\xFF.xml".to_vec())));
    let checking = Checking { documents: vec![document], quiet: false, json: false };
    assert_eq!(read(words.into_iter()), Ok(Request::Check(checking)));
}

#[test]
fn the_plain_engine_is_asked_for() {
    let plain = |words: &[&str]| matches!(asked(words), Ok(Request::Task(Task { plain: true, .. })));
    assert!(plain(&["cut", "-la", "--plain"]) && !plain(&["cut", "-la"]));
    assert_eq!(asked(&["check", "--plain"]), Err("check takes no --plain".to_string()));
    assert_eq!(asked(&["cut", "-la", "--plain=no"]), Err("--plain takes no value".to_string()));
}

#[test]
fn show_takes_what_cuts_a_document() {
    let paths = Paths { list: Some(file("a")), packed: false, more: Vec::new() };
    let showing = Showing { paths, document: file("m"), output: Sink::File(PathBuf::from("p")), quiet: true };
    assert_eq!(asked(&["show", "-qla", "m", "-op"]), Ok(Request::Show(showing)));
    assert_eq!(asked(&["show", "-la", "--count"]), Err("show takes no --count".to_string()));
    assert_eq!(asked(&["show", "m"]).unwrap_err(), asked(&["cut", "m"]).unwrap_err().replace("cut wants", "show wants"));
}

#[test]
fn mend_takes_a_document_and_an_output() {
    let mend = |document, output| Ok(Request::Mend(Mending { document, output, quiet: false, json: false }));
    assert_eq!(asked(&["mend"]), mend(Source::Standard, Sink::Standard));
    assert_eq!(asked(&["mend", "m", "-o", "o"]), mend(file("m"), Sink::File(PathBuf::from("o"))));
    assert_eq!(asked(&["mend", "-la"]), Err("mend takes no --list".to_string()));
}

#[test]
fn wrong_words_are_told() {
    let wrong = |words: &[&str]| asked(words).unwrap_err();
    assert_eq!(wrong(&[]), "there is no command: it is cut, rows, check, batch, pack, unpack, covers, mend, show or explain");
    assert_eq!(wrong(&["cut", "m"]), "cut wants a list: -l LIST, or -e PATH; by -l /dev/null the root alone is kept");
    assert_eq!(wrong(&["cut", "-l"]), "--list wants a file's name");
    assert_eq!(wrong(&["batch", "-la", "-lb"]), "--list is given twice");
    assert_eq!(wrong(&["mend", "-oa", "-ob"]), "--output is given twice");
    assert_eq!(wrong(&["cut", "--count=1"]), "--count takes no value");
    assert_eq!(wrong(&["cut", "-qx"]), "there is no option -qx");
    assert_eq!(wrong(&["cut", "-la", "a\n", "b"]), "cut takes one document, and b is a second");
    assert_eq!(wrong(&["check", "-", "b", "/dev/stdin"]), "two documents can't both come from the standard input");
    assert_eq!(wrong(&["cut", "-la", "--each", "-oo"]), "--each writes no cut, so it takes no --output");
    assert_eq!(wrong(&["check", "--packed"]), "check takes no --packed");
    assert_eq!(wrong(&["pack", "-la"]), "pack takes no --list");
    // A forgotten -l comes before what else is wrong.
    assert_eq!(wrong(&["cut", "a", "m", "--count", "-oo"]), wrong(&["cut", "m"]));
    assert_eq!(wrong(&["unpack", "a", "b"]), "unpack takes one list, and b is a second");
    assert_eq!(wrong(&["explain", "1", "2"]), "explain takes one number, or none to list them");
}

#[test]
fn batch_goes_two_ways() {
    let way = |words: &[&str]| match asked(words) {
        Ok(Request::Batch(Post { way, .. })) => way,
        other => panic!("{other:?}"),
    };
    let documents = vec![(PathBuf::from("x/a.xml"), OsString::from("a.xml")), (PathBuf::from("b.xml"), OsString::from("b.xml"))];
    assert_eq!(way(&["batch", "-la", "-d", "cuts", "x/a.xml", "b.xml"]), Way::Documents(documents, PathBuf::from("cuts")));
    assert_eq!(way(&["batch", "-la"]), Way::Batch(Source::Standard, Sink::Standard));
    assert!(matches!(asked(&["batch", "-la", "--json"]), Ok(Request::Batch(Post { json: true, quiet: false, .. }))));
    assert_eq!(way(&["batch", "-la", "n.post", "-oo"]), Way::Batch(file("n.post"), Sink::File(PathBuf::from("o"))));
    let wrong = |words: &[&str]| asked(words).unwrap_err();
    assert_eq!(wrong(&["batch", "a.xml"]), "batch wants a list: -l LIST, or -e PATH");
    assert_eq!(wrong(&["batch", "-la", "-dc", "x/a.xml", "a.xml"]), "two documents have the name a.xml");
    assert_eq!(wrong(&["batch", "-la", "-dc", ".."]), ".. is no name for a document of a batch");
    assert_eq!(wrong(&["batch", "-la", "-dc", "-"]), "- is no name for a document of a batch");
    assert_eq!(wrong(&["batch", "-la", "-dc"]), "batch with --folder wants documents");
    assert_eq!(wrong(&["batch", "-la", "x", "y"]), "batch takes one batch, or with -d FOLDER documents");
    assert_eq!(wrong(&["cut", "-la", "-dc"]), "cut takes no --folder");
}

#[test]
fn covers_takes_two_lists() {
    let asked_for = Asked { narrow: file("n"), wide: file("w"), packed: false, quiet: true, json: false };
    assert_eq!(asked(&["covers", "--narrow", "n", "--wide=w", "-q"]), Ok(Request::Covers(asked_for)));
    let wrong = |words: &[&str]| asked(words).unwrap_err();
    assert_eq!(wrong(&["covers", "--narrow", "n"]), "covers wants two lists: --narrow LIST --wide LIST");
    assert_eq!(wrong(&["covers", "--narrow", "n", "--wide", "w", "m"]), "covers takes two lists by their options, and m is none");
    assert_eq!(wrong(&["covers", "--narrow=-", "--wide=-"]), "the two lists can't both come from the standard input");
    assert_eq!(wrong(&["cut", "-la", "--wide", "w"]), "cut takes no --wide");
}

#[test]
fn paths_stand_on_the_command_line() {
    let paths = |words: &[&str]| match asked(words) {
        Ok(Request::Task(Task { paths, .. })) => paths,
        Ok(Request::Batch(post)) => post.paths,
        other => panic!("{other:?}"),
    };
    let more = |list, more: &[&str]| Paths { list, packed: false, more: more.iter().map(|path| path.as_bytes().to_vec()).collect() };
    assert_eq!(paths(&["cut", "-e", "//v #", "--path=/a", "-e//w"]), more(None, &["//v #", "/a", "//w"]));
    assert_eq!(paths(&["batch", "-la", "-e", "/a"]), more(Some(file("a")), &["/a"]));
    let wrong = |words: &[&str]| asked(words).unwrap_err();
    assert_eq!(wrong(&["cut", "-e"]), "--path wants a path");
    assert_eq!(wrong(&["cut", "-e", "/a\n/b"]), "--path takes one path, without a line feed");
    assert_eq!(wrong(&["check", "-e", "/a"]), "check takes no --path");
}

#[test]
fn letters_are_joined_and_help_stands_anywhere() {
    assert_eq!(cut_of(&["cut", "-qla", "m"]), (file("a"), file("m"), Some(Sink::Standard)));
    assert!(matches!(asked(&["check", "-qq"]), Ok(Request::Check(Checking { quiet: true, .. }))));
    for words in [&["-V"][..], &["cut", "-V"], &["check", "--count", "--version"], &["explain", "-qV"]] {
        assert_eq!(asked(words), Ok(Request::Version));
    }
    assert_eq!(asked(&["batch", "-qh"]), Ok(Request::Help));
    assert_eq!(asked(&["cut", "-", "-h"]), Ok(Request::Help));
    assert_eq!(asked(&["check", "-qx"]), Err("there is no option -qx".to_string()));
}

#[test]
fn several_lists_have_an_output_each() {
    let clients = |words: &[&str]| match asked(words) {
        Ok(Request::Clients(clients)) => clients,
        other => panic!("{other:?}"),
    };
    let client = |list: Option<&str>, more: &[&str], output| Client {
        paths: Paths { list: list.map(file), packed: false, more: more.iter().map(|path| path.as_bytes().to_vec()).collect() },
        output,
    };
    let to = |name: &str| Sink::File(PathBuf::from(name));
    let got = clients(&["cut", "-la", "-e/x", "-o", "p", "m", "-e", "//v", "-e//w", "-oq", "-lb", "--output=-"]);
    assert_eq!(got.clients[0], client(Some("a"), &["/x"], to("p")));
    assert_eq!(got.clients[1..], [client(None, &["//v", "//w"], to("q")), client(Some("b"), &[], Sink::Standard)]);
    assert_eq!((got.document, got.quiet, got.json), (file("m"), false, false));
    assert!(clients(&["cut", "--packed", "-la", "-op", "-lb", "-oq"]).clients.iter().all(|client| client.paths.packed));
    // One list and one output are as ever, in any order.
    assert_eq!(cut_of(&["cut", "-oo", "-la", "m"]), (file("a"), file("m"), Some(to("o"))));
    let wrong = |words: &[&str]| asked(words).unwrap_err();
    let unwritten = "each of several lists wants its own output behind it: -l LIST -o OUTPUT, up to four times";
    assert_eq!(wrong(&["cut", "-la", "-lb", "m"]), unwritten);
    assert_eq!(wrong(&["cut", "-la", "-lb", "-op", "-oq", "m"]), unwritten);
    assert_eq!(wrong(&["cut", "-la", "-op", "-lb", "m"]), unwritten);
    let unlisted = "each of several outputs wants its own list before it: -l LIST -o OUTPUT, up to four times";
    assert_eq!(wrong(&["cut", "-la", "-op", "-oq", "m"]), unlisted);
    assert_eq!(wrong(&["cut", "-op", "-la", "-oq", "-lb", "m"]), unlisted);
    assert_eq!(wrong(&["cut", "-la", "-op", "-lb", "-op", "m"]), "two cuts can't both go to p");
    assert_eq!(wrong(&["cut", "-la", "-o-", "-lb", "-o/dev/stdout", "m"]), "two cuts can't both go to standard output");
    let one = "only one of the lists and the document can come from the standard input";
    assert_eq!(wrong(&["cut", "-la", "-op", "-l-", "-oq"]), one);
    assert_eq!(wrong(&["cut", "-l-", "-op", "-l/dev/stdin", "-oq", "m"]), one);
    assert_eq!(wrong(&["cut", "-la", "-op", "-lb", "-oq", "--count"]), "--count takes one list");
    let five = ["cut", "m", "-l1", "-op", "-l2", "-oq", "-l3", "-or", "-l4", "-os", "-l5", "-ot"];
    assert_eq!(wrong(&five), "cut serves four lists at most, and these are 5");
    assert_eq!(clients(&five[..10]).clients.len(), 4);
}

#[test]
fn rows_take_a_list_a_document_and_an_output() {
    let paths = |list, more: &[&str]| Paths { list, packed: false, more: more.iter().map(|path| path.as_bytes().to_vec()).collect() };
    let table = |paths, document, output| Ok(Request::Rows(Table { paths, document, output, quiet: false, json: false }));
    let expected = table(paths(Some(file("a")), &[]), file("m"), Sink::File(PathBuf::from("o")));
    assert_eq!(asked(&["rows", "-la", "m", "-oo"]), expected);
    assert_eq!(asked(&["rows", "-e", "//v"]), table(paths(None, &["//v"]), Source::Standard, Sink::Standard));
    assert!(matches!(asked(&["rows", "-la", "--packed", "--json"]), Ok(Request::Rows(Table { json: true, .. }))));
    let wrong = |words: &[&str]| asked(words).unwrap_err();
    assert_eq!(wrong(&["rows", "m"]), "rows wants a list: -l LIST, or -e PATH");
    assert_eq!(wrong(&["rows", "-l-"]), "the list and the document can't both come from the standard input");
    assert_eq!(wrong(&["rows", "-la", "--count"]), "rows takes no --count");
    assert_eq!(wrong(&["rows", "-la", "-op", "-lb", "-oq"]), "--list is given twice");
}
