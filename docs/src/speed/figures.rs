// What the plot is drawn from: throughput of each filter and parser, by list and by kind of document, in megabytes a second. The file that
// is named first at the start has a line for each, parted by tabs: panel, group, what, figure.
use std::fmt::Write;
use std::{env, fs};

#[derive(Default)]
pub struct Figures(String);

impl Figures {
    pub fn add(&mut self, panel: &str, group: &str, what: &str, megabytes_a_second: f64) {
        writeln!(self.0, "{panel}\t{group}\t{what}\t{megabytes_a_second:.1}").unwrap();
    }

    pub fn write(&self) {
        if let Some(file) = env::args().nth(1) {
            fs::write(&file, &self.0).unwrap_or_else(|e| panic!("{file}: {e}"));
        }
    }
}
