//! The sizes of the path list, each limit and one past it, and which fault of which line decides. How lines read is in
//! `lists`.

use super::lists::{accepted, malformed, DOC};
use super::refused;

#[test]
fn list_of_8192_bytes() {
    let line = format!("/{}\n", "a".repeat(254));
    let list = line.repeat(32);
    assert_eq!(list.len(), 8_192);
    accepted(&list);
    refused(list + "\n", DOC, 1, 0);
    refused("x".repeat(8_192), DOC, 2, 1);
    refused("x".repeat(8_193), DOC, 1, 0);
}

#[test]
fn line_33() {
    let full = "/v\n".repeat(32);
    accepted(&full);
    for more in ["/v\n", "\n", "x", "/v", " ", "#\n"] {
        refused(full.clone() + more, DOC, 3, 33);
    }
    refused("/v\n".repeat(31) + "x\n/v\n", DOC, 2, 32);
    refused("/v\n".repeat(31) + "/v", DOC, 2, 32);
    refused("/v\n".repeat(40), DOC, 3, 33);
}

#[test]
fn steps_16_and_17() {
    accepted("/a".repeat(16) + "\n");
    accepted("//*".repeat(16) + " #\n");
    refused("/a".repeat(17) + "\n", DOC, 3, 1);
    refused("/v\n".to_string() + &"//*".repeat(17) + " #\n", DOC, 3, 2);
}

#[test]
fn names_of_255_and_256_bytes() {
    accepted(format!("/{}\n", "a".repeat(255)));
    refused(format!("/{}\n", "a".repeat(256)), DOC, 3, 1);
    accepted(format!("/v/a{}/w #\n", "\u{E9}".repeat(127)));
    refused(format!("/v/{}/w #\n", "\u{E9}".repeat(128)), DOC, 3, 1);
}

#[test]
fn malformed_comes_before_too_large_within_a_line() {
    let long = "a".repeat(256);
    malformed("/a".repeat(17) + "!\n");
    malformed("/a".repeat(17));
    malformed(format!("/{long}/\n"));
    malformed(format!("/{long}  #\n"));
    malformed(format!("//!//{long}\n"));
}

#[test]
fn the_first_line_with_a_fault_decides() {
    let long = format!("/{}\n", "a".repeat(256));
    refused(format!("{long}x\n"), DOC, 3, 1);
    refused(format!("x\n{long}"), DOC, 2, 1);
    refused(format!("/v\n{long}x\n"), DOC, 3, 2);
    refused(format!("/v\n//w #\nx\n{long}"), DOC, 2, 3);
    refused(b"/v\n/w\n\xFF\n\n", DOC, 2, 3);
}
