//! References, productions [66] to [68] of XML 1.0: "the five predefined names and character references that denote a
//! Char". They stand as items of their own and inside attribute values. Each function gives the character that is meant.

use crate::chars::is_char;
use crate::reader::Reader;

/// "the five predefined names"
const PREDEFINED: [(&str, char); 5] = [("amp", '&'), ("lt", '<'), ("gt", '>'), ("apos", '\''), ("quot", '"')];

/// [67] Reference ::= EntityRef | CharRef
pub fn reference(reader: &mut Reader) -> Option<char> {
    if reader.sees("&#") {
        char_reference(reader)
    } else {
        entity_reference(reader)
    }
}

/// [68] EntityRef ::= '&' Name ';'. Without a document type no other names than the predefined are declared.
fn entity_reference(reader: &mut Reader) -> Option<char> {
    reader.want("&")?;
    let name = reader.name()?;
    reader.want(";")?;
    PREDEFINED.iter().find(|(predefined, _)| *predefined == name).map(|&(_, c)| c)
}

/// [66] CharRef ::= '&#' [0-9]+ ';' | '&#x' [0-9a-fA-F]+ ';'
fn char_reference(reader: &mut Reader) -> Option<char> {
    reader.want("&#")?;
    let radix = if reader.take("x") { 16 } else { 10 };
    let digits = reader.run(|c| c.is_digit(radix));
    reader.want(";")?;
    denoted(digits, radix)
}

/// The Char that these digits denote. No digits denote none. Leading zeros may be many; a number past `u32` is no Char.
fn denoted(digits: &str, radix: u32) -> Option<char> {
    let significant = digits.trim_start_matches('0');
    u32::from_str_radix(significant, radix).ok().and_then(char::from_u32).filter(|&c| is_char(c))
}
