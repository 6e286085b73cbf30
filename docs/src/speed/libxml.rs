// The parser libxml2, by its SAX interface, behind safe functions: a document checked, with no handlers; and checked and counted. Nothing
// checks the declarations against the C ones.
use std::ffi::{c_char, c_int, c_uint, c_void};
use std::ptr::{null, null_mut};

const SAX2: c_uint = 0xDEEDBEAF;
const CHARACTERS: usize = 17;
const CDATA: usize = 25;

type OnText = extern "C" fn(*mut c_void, *const c_char, c_int);
type Pointer = *const c_void;
type OnStart = extern "C" fn(*mut c_void, Pointer, Pointer, Pointer, c_int, Pointer, c_int, c_int, Pointer);
type OnEnd = extern "C" fn(*mut c_void, Pointer, Pointer, Pointer);

/// xmlSAXHandler: handlers of its first version, by their places, then those of its second.
#[repr(C)]
struct Handlers {
    first: [Option<OnText>; 27],
    version: c_uint,
    private: *const c_void,
    start: Option<OnStart>,
    end: Option<OnEnd>,
    fault: *const c_void,
}

extern "C" {
    fn xmlSAXUserParseMemory(handlers: *mut Handlers, data: *mut c_void, text: *const c_char, len: c_int) -> c_int;
}

fn handlers() -> Handlers {
    Handlers { first: [None; 27], version: SAX2, private: null(), start: None, end: None, fault: null() }
}

fn parse(doc: &[u8], mut handlers: Handlers, data: *mut c_void) -> bool {
    unsafe { xmlSAXUserParseMemory(&mut handlers, data, doc.as_ptr().cast(), doc.len() as c_int) == 0 }
}

pub fn check(doc: &[u8]) -> bool {
    parse(doc, handlers(), null_mut())
}

extern "C" fn start(counts: *mut c_void, _: Pointer, _: Pointer, _: Pointer, _: c_int, _: Pointer, _: c_int, _: c_int, _: Pointer) {
    unsafe { (*counts.cast::<[usize; 3]>())[0] += 1 }
}

extern "C" fn end(counts: *mut c_void, _: Pointer, _: Pointer, _: Pointer) {
    unsafe { (*counts.cast::<[usize; 3]>())[1] += 1 }
}

extern "C" fn text(counts: *mut c_void, _: *const c_char, len: c_int) {
    unsafe { (*counts.cast::<[usize; 3]>())[2] += len as usize }
}

/// How many starts and ends of elements a well-formed document has, and how many bytes of text.
pub fn count(doc: &[u8]) -> Option<[usize; 3]> {
    let mut counts = [0; 3];
    let mut handlers = Handlers { start: Some(start), end: Some(end), ..handlers() };
    handlers.first[CHARACTERS] = Some(text);
    handlers.first[CDATA] = Some(text);
    let sound = parse(doc, handlers, (&raw mut counts).cast());
    Some(counts).filter(|_| sound)
}
