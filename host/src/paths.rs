//! The paths that a command cuts by: a list, packed or not, then the paths of the command line.
use crate::input::Source;
use crate::packing;
use crate::report::Read;
use crate::trouble::Trouble;
use choughbell::Refusal;

/// What the command line names.
#[derive(PartialEq, Eq, Debug)]
pub struct Paths {
    pub list: Option<Source>,
    /// The list is in its packed form.
    pub packed: bool,
    /// The values of `--path`, each a line without its line feed.
    pub more: Vec<Vec<u8>>,
}

impl Paths {
    /// The list as it stands in its file.
    pub fn read(&self) -> Result<Read, Trouble> {
        match &self.list {
            Some(list) => packing::read(list, self.packed),
            None => Ok(Read::default()),
        }
    }

    /// All lines as one text. Behind a last line that is not ended no other is put: that one is refused, as it is without them.
    pub fn text(&self, list: &Read) -> Result<Read, Refusal> {
        let mut text = packing::text(list, self.packed && self.list.is_some())?;
        if self.more.is_empty() {
            return Ok(text);
        }
        text.name = if self.list.is_some() { format!("{} and -e", text.name) } else { "-e".to_string() };
        if text.bytes.last().map_or(true, |&b| b == b'\n') {
            text.bytes.extend(self.more.iter().flat_map(|path| path.iter().chain(b"\n")));
            text.size = Some(text.bytes.len() as u64);
        }
        Ok(text)
    }
}

#[cfg(test)]
mod tests {
    use super::*;

    fn text(list: &[u8], more: &[&str]) -> (String, String) {
        let more = more.iter().map(|path| path.as_bytes().to_vec()).collect();
        let paths = Paths { list: Some(Source::Standard), packed: false, more };
        let text = paths.text(&Read::whole("a.lst".to_string(), list.to_vec())).unwrap();
        (text.name, String::from_utf8(text.bytes).unwrap())
    }

    #[test]
    fn paths_follow_the_list() {
        let row = |name: &str, text: &str| (name.to_string(), text.to_string());
        assert_eq!(text(b"//v\n", &[]), row("a.lst", "//v\n"));
        assert_eq!(text(b"//v\n", &["/a #", "//w"]), row("a.lst and -e", "//v\n/a #\n//w\n"));
        assert_eq!(text(b"", &["/a"]), row("a.lst and -e", "/a\n"));
        // Else this would be the line `/a//v`, which is sound.
        assert_eq!(text(b"/a", &["//v"]), row("a.lst and -e", "/a"));
    }
}
