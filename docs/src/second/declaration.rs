//! The declaration at a document's front: productions [23] to [26], [32], [80] and [81] of XML 1.0. All that is kept of
//! it is the encoding that it names, for document 02's Q-1: "The encoding name must count."

use crate::chars::{ascii_front, is_white};
use crate::reader::Reader;

/// EF BB BF, which are skipped at the front.
const MARK: &[u8] = "\u{FEFF}".as_bytes();

/// Q-1: the declaration's offset, "exactly when the first item has the right shape of a declaration and names another
/// encoding". This is asked of bytes that may not be text. A declaration is ASCII throughout, so it stands within the
/// ASCII at the front or not at all.
pub fn names_other_encoding(doc: &[u8]) -> Option<usize> {
    let (offset, rest) = match doc.strip_prefix(MARK) {
        Some(rest) => (MARK.len(), rest),
        None => (0, doc),
    };
    let name = declaration(&mut Reader::new(ascii_front(rest)))??;
    if is_utf_8(name) {
        return None;
    }
    Some(offset)
}

/// "one that says UTF-8 with ASCII letter case ignored".
fn is_utf_8(name: &str) -> bool {
    name.eq_ignore_ascii_case("UTF-8")
}

/// "a declaration (`<?xml` and white space, as first item only)": do its first bytes stand here?
pub fn begins(reader: &Reader) -> bool {
    match reader.rest().strip_prefix("<?xml") {
        Some(rest) => rest.starts_with(is_white),
        None => false,
    }
}

/// [23] XMLDecl ::= '<?xml' VersionInfo EncodingDecl? SDDecl? S? '?>'
/// With the encoding that it names, if it names one.
pub fn declaration<'a>(reader: &mut Reader<'a>) -> Option<Option<&'a str>> {
    reader.want("<?xml")?;
    version_info(reader)?;
    let encoding = reader.optional(encoding_declaration);
    reader.optional(standalone_declaration);
    reader.optional(Reader::white_space);
    reader.want("?>")?;
    Some(encoding)
}

/// [24] VersionInfo ::= S 'version' Eq ("'" VersionNum "'" | '"' VersionNum '"')
fn version_info(reader: &mut Reader) -> Option<()> {
    reader.white_space()?;
    reader.want("version")?;
    equals(reader)?;
    quoted(reader, version_number)
}

/// [25] Eq ::= S? '=' S?
pub fn equals(reader: &mut Reader) -> Option<()> {
    reader.optional(Reader::white_space);
    reader.want("=")?;
    reader.optional(Reader::white_space);
    Some(())
}

/// [26] VersionNum ::= '1.' [0-9]+
fn version_number(reader: &mut Reader) -> Option<()> {
    reader.want("1.")?;
    if reader.run(|c| c.is_ascii_digit()).is_empty() {
        return None;
    }
    Some(())
}

/// [80] EncodingDecl ::= S 'encoding' Eq ('"' EncName '"' | "'" EncName "'" )
fn encoding_declaration<'a>(reader: &mut Reader<'a>) -> Option<&'a str> {
    reader.white_space()?;
    reader.want("encoding")?;
    equals(reader)?;
    quoted(reader, encoding_name)
}

/// [81] EncName ::= [A-Za-z] ([A-Za-z0-9._] | '-')*
fn encoding_name<'a>(reader: &mut Reader<'a>) -> Option<&'a str> {
    if !reader.rest().starts_with(|c: char| c.is_ascii_alphabetic()) {
        return None;
    }
    Some(reader.run(|c| c.is_ascii_alphanumeric() || c == '.' || c == '_' || c == '-'))
}

/// [32] SDDecl ::= S 'standalone' Eq (("'" ('yes' | 'no') "'") | ('"' ('yes' | 'no') '"'))
fn standalone_declaration(reader: &mut Reader) -> Option<()> {
    reader.white_space()?;
    reader.want("standalone")?;
    equals(reader)?;
    quoted(reader, yes_or_no)
}

fn yes_or_no(reader: &mut Reader) -> Option<()> {
    if reader.take("yes") {
        return Some(());
    }
    reader.want("no")
}

/// The production between two single or two double quotes.
fn quoted<'a, T>(reader: &mut Reader<'a>, production: fn(&mut Reader<'a>) -> Option<T>) -> Option<T> {
    let quote = if reader.take("'") {
        "'"
    } else {
        reader.want("\"")?;
        "\""
    };
    let found = production(reader)?;
    reader.want(quote)?;
    Some(found)
}
