//! The sizes of document 01, under "Sizes" and "The program `cut`", and of document 02 those of a value in a list, Q-4, and of
//! a batch, Q-2. "The limit itself is accepted, one more is refused", so every comparison with one of these is `>`.

pub const LIST_BYTES: usize = 8_192;
pub const LIST_LINES: usize = 32;
pub const LINE_STEPS: usize = 16;
pub const DOCUMENT_BYTES: usize = 16_777_216;
pub const NAME_BYTES: usize = 255;
pub const VALUE_BYTES: usize = 255;
pub const DEPTH: usize = 64;
pub const TAG_ATTRIBUTES: usize = 32;
pub const BATCH_BYTES: usize = 67_108_864;

pub const PROGRAM_DOCUMENT_BYTES: usize = 32_768;
pub const PROGRAM_ROOM_BYTES: usize = 65_536;
