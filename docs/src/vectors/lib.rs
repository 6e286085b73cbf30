//! What programs that try cases share: cases by a generator, in `made`, those of the W3C's suite with its verdicts, in `suite`, the files
//! that hold cases, in `pack`, and a case asked of a program, with its digest, in `asked` and `crc`. All these are cases of the cut.
//! Those of the other calls are under their names, by hand and by a generator, and `calls` has what these share.

pub mod asked;
pub mod batch;
pub mod calls;
pub mod covers;
pub mod crc;
pub mod four;
pub mod made;
pub mod mend;
pub mod pack;
pub mod packed;
pub mod rows;
pub mod suite;
