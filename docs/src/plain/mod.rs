// Ordinary Rust that answers what the library answers, from the standard library and the words of document 01 and the Recommendation.
pub mod chars;
pub mod paths;
pub mod select;
