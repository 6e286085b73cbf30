// Other parsers, as far as they are there, which only check that a document is well-formed: with no handlers, or with handlers that count.

/// What a parser is called, and whether it accepts a document.
pub type Parser = (&'static str, fn(&[u8]) -> bool);

pub const EXPAT: &str = "expat";
pub const LIBXML: &str = "libxml2";

/// With no handlers.
pub const PARSERS: &[Parser] = &[
    #[cfg(expat)]
    (EXPAT, crate::expat::check),
    #[cfg(libxml)]
    (LIBXML, crate::libxml::check),
];

pub const COUNTING: &[Parser] = &[
    #[cfg(expat)]
    ("expat, counting", |doc| crate::expat::count(doc).is_some()),
    #[cfg(libxml)]
    ("libxml2, counting", |doc| crate::libxml::count(doc).is_some()),
];

/// Those that are there have to accept a document and to count alike.
pub fn agree(doc: &[u8]) {
    PARSERS.iter().for_each(|(what, check)| assert!(check(doc), "{what} refuses"));
    #[cfg(all(expat, libxml))]
    assert_eq!(crate::expat::count(doc), crate::libxml::count(doc));
}
