//! Tags: productions [10], [40] to [42] and [44] of XML 1.0. Names and attributes are handed on as they stand; how
//! large they may be and whether one comes twice is judged in `faults`, what a value means in `value`.

use crate::declaration::equals;
use crate::reader::Reader;
use crate::reference::reference;

/// An attribute, its value as it stands between the quotes.
pub struct Attribute<'a> {
    pub name: &'a str,
    pub value: &'a str,
}

/// A start tag or an empty tag.
pub struct Tag<'a> {
    pub name: &'a str,
    pub attributes: Vec<Attribute<'a>>,
    pub is_empty: bool,
}

/// [40] STag ::= '<' Name (S Attribute)* S? '>'
/// [44] EmptyElemTag ::= '<' Name (S Attribute)* S? '/>'
pub fn start_or_empty_tag<'a>(reader: &mut Reader<'a>) -> Option<Tag<'a>> {
    reader.want("<")?;
    let name = reader.name()?;
    let mut attributes = Vec::new();
    loop {
        let blank = reader.white_space();
        if reader.take(">") {
            return Some(Tag { name, attributes, is_empty: false });
        }
        if reader.take("/>") {
            return Some(Tag { name, attributes, is_empty: true });
        }
        // Another attribute must have white space before it.
        blank?;
        attributes.push(attribute(reader)?);
    }
}

/// [41] Attribute ::= Name Eq AttValue
fn attribute<'a>(reader: &mut Reader<'a>) -> Option<Attribute<'a>> {
    let name = reader.name()?;
    equals(reader)?;
    let value = attribute_value(reader)?;
    Some(Attribute { name, value })
}

/// [10] AttValue ::= '"' ([^<&"] | Reference)* '"' | "'" ([^<&'] | Reference)* "'"
fn attribute_value<'a>(reader: &mut Reader<'a>) -> Option<&'a str> {
    let quote = reader.one()?;
    if quote != '"' && quote != '\'' {
        return None;
    }
    let from = reader.rest();
    loop {
        reader.run(|c| c != '<' && c != '&' && c != quote);
        if reader.sees("&") {
            reference(reader)?;
        } else if reader.take(&quote.to_string()) {
            return Some(&from[..from.len() - reader.rest().len() - quote.len_utf8()]);
        } else {
            // It is `<`, "no `<` in an attribute value", or the end.
            return None;
        }
    }
}

/// [42] ETag ::= '</' Name S? '>'
pub fn end_tag<'a>(reader: &mut Reader<'a>) -> Option<&'a str> {
    reader.want("</")?;
    let name = reader.name()?;
    reader.optional(Reader::white_space);
    reader.want(">")?;
    Some(name)
}
