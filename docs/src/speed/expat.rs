// The parser expat, behind safe functions: a document checked, with no handlers; checked and counted, by handlers; and its elements, one
// after the other, with their places. Nothing checks the declarations against the C ones.
use std::ffi::{c_char, c_int, c_long, c_void, CStr};
use std::ops::Range;
use std::ptr::null;

type Parser = *mut c_void;
type OnStart = extern "C" fn(*mut c_void, *const c_char, *const *const c_char);
type OnEnd = extern "C" fn(*mut c_void, *const c_char);
type OnText = extern "C" fn(*mut c_void, *const c_char, c_int);

extern "C" {
    fn XML_ParserCreate(encoding: *const c_char) -> Parser;
    fn XML_ParserFree(parser: Parser);
    fn XML_SetUserData(parser: Parser, data: *mut c_void);
    fn XML_SetElementHandler(parser: Parser, start: OnStart, end: OnEnd);
    fn XML_SetCharacterDataHandler(parser: Parser, text: OnText);
    fn XML_Parse(parser: Parser, text: *const c_char, len: c_int, is_final: c_int) -> c_int;
    fn XML_GetCurrentByteIndex(parser: Parser) -> c_long;
    fn XML_GetCurrentByteCount(parser: Parser) -> c_int;
}

/// Whether a document is well-formed; a parser is made for it and set up.
fn parse(doc: &[u8], set_up: impl FnOnce(Parser)) -> bool {
    unsafe {
        let parser = XML_ParserCreate(null());
        set_up(parser);
        let sound = XML_Parse(parser, doc.as_ptr().cast(), doc.len() as c_int, 1) == 1;
        XML_ParserFree(parser);
        sound
    }
}

pub fn check(doc: &[u8]) -> bool {
    parse(doc, |_| {})
}

extern "C" fn count_start(counts: *mut c_void, _: *const c_char, _: *const *const c_char) {
    unsafe { (*counts.cast::<[usize; 3]>())[0] += 1 }
}

extern "C" fn count_end(counts: *mut c_void, _: *const c_char) {
    unsafe { (*counts.cast::<[usize; 3]>())[1] += 1 }
}

extern "C" fn count_text(counts: *mut c_void, _: *const c_char, len: c_int) {
    unsafe { (*counts.cast::<[usize; 3]>())[2] += len as usize }
}

/// How many starts and ends of elements a well-formed document has, and how many bytes of text.
pub fn count(doc: &[u8]) -> Option<[usize; 3]> {
    let mut counts = [0; 3];
    let sound = parse(doc, |parser| unsafe {
        XML_SetUserData(parser, (&raw mut counts).cast());
        XML_SetElementHandler(parser, count_start, count_end);
        XML_SetCharacterDataHandler(parser, count_text);
    });
    Some(counts).filter(|_| sound)
}

/// An element's start, with its name and the place of its tag; or its end, with the place after it.
pub enum Event {
    Start(Vec<u8>, Range<usize>),
    End(usize),
}

struct Told<'a> {
    parser: Parser,
    tell: &'a mut dyn FnMut(Event),
}

impl Told<'_> {
    fn place(&self) -> Range<usize> {
        let (from, len) = unsafe { (XML_GetCurrentByteIndex(self.parser), XML_GetCurrentByteCount(self.parser)) };
        from as usize..from as usize + len as usize
    }
}

extern "C" fn tell_start(told: *mut c_void, name: *const c_char, _: *const *const c_char) {
    let (told, name) = unsafe { (&mut *told.cast::<Told>(), CStr::from_ptr(name)) };
    let start = Event::Start(name.to_bytes().to_vec(), told.place());
    (told.tell)(start);
}

extern "C" fn tell_end(told: *mut c_void, _: *const c_char) {
    let told = unsafe { &mut *told.cast::<Told>() };
    let end = Event::End(told.place().end);
    (told.tell)(end);
}

/// The elements of a document are told in turn, as far as it is well-formed; whether it is.
pub fn events(doc: &[u8], tell: &mut dyn FnMut(Event)) -> bool {
    let mut told = Told { parser: std::ptr::null_mut(), tell };
    let told = &raw mut told;
    parse(doc, |parser| unsafe {
        (*told).parser = parser;
        XML_SetUserData(parser, told.cast());
        XML_SetElementHandler(parser, tell_start, tell_end);
    })
}
