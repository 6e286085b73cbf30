//! The items that hold no name of an element: text, comments, instructions and CDATA sections, productions [14] to
//! [21] of XML 1.0. Each function reads one item through its last byte, or gives `None` if the production is broken.

use crate::reader::Reader;

/// [14] CharData ::= [^<&]* - ([^<&]* ']]>' [^<&]*)
pub fn char_data<'a>(reader: &mut Reader<'a>) -> Option<&'a str> {
    let text = reader.run(|c| c != '<' && c != '&');
    if text.contains("]]>") {
        return None;
    }
    Some(text)
}

/// [15] Comment ::= '<!--' ((Char - '-') | ('-' (Char - '-')))* '-->'
/// Two hyphens together can only be those of the end, so `--->` is refused with the rest.
pub fn comment(reader: &mut Reader) -> Option<()> {
    reader.want("<!--")?;
    while !reader.take("--") {
        reader.one()?;
    }
    reader.want(">")
}

/// [16] PI ::= '<?' PITarget (S (Char* - (Char* '?>' Char*)))? '?>'
pub fn instruction(reader: &mut Reader) -> Option<()> {
    reader.want("<?")?;
    instruction_target(reader)?;
    if reader.take("?>") {
        return Some(());
    }
    reader.white_space()?;
    reader.through("?>")
}

/// [17] PITarget ::= Name - (('X' | 'x') ('M' | 'm') ('L' | 'l'))
fn instruction_target(reader: &mut Reader) -> Option<()> {
    if reader.name()?.eq_ignore_ascii_case("xml") {
        return None;
    }
    Some(())
}

/// [18] CDSect ::= CDStart CData CDEnd, with [19] CDStart ::= '<![CDATA[', [20] CData ::= (Char* - (Char* ']]>' Char*))
/// and [21] CDEnd ::= ']]>'
pub fn cdata_section(reader: &mut Reader) -> Option<()> {
    reader.want("<![CDATA[")?;
    reader.through("]]>")
}
