// The names of a list, to be found by the bytes of a document: a table of hashes of a name's length and its first eight bytes.

use crate::marks::word_at;

/// The first eight bytes of a name, zeros where it has fewer. A document's bytes behind it are read along, where there are any, since a
/// word is read faster than its bytes.
#[inline(always)]
fn head(doc: &[u8], from: usize, length: usize) -> u64 {
    match word_at(doc, from) {
        Some(word) if length >= 8 => word,
        Some(word) => word & ((1 << (8 * length)) - 1),
        None => (0..length.min(8)).fold(0, |word, i| word | u64::from(doc[from + i]) << (8 * i)),
    }
}

struct Entry<'a> {
    head: u64,
    name: &'a [u8],
}

pub struct Names<'a> {
    entries: Vec<Entry<'a>>,
    /// Numbers of entries, from 1; 0 is none. Its length is a power of two, at least twice the number of entries.
    slots: Vec<u16>,
    shift: u32,
}

impl<'a> Names<'a> {
    /// For at most so many names.
    pub fn with_room(most: usize) -> Self {
        let bits = (2 * most + 2).next_power_of_two().trailing_zeros();
        Names { entries: Vec::with_capacity(most), slots: vec![0; 1 << bits], shift: 64 - bits }
    }

    /// The slot of the name, or the first free one where it would stand.
    #[inline(always)]
    fn slot(&self, head: u64, name: &[u8]) -> usize {
        let mixed = (head ^ (name.len() as u64) << 56).wrapping_mul(0x9E37_79B9_7F4A_7C15);
        let mut slot = (mixed >> self.shift) as usize;
        loop {
            match self.slots[slot] {
                0 => return slot,
                number => {
                    let entry = &self.entries[number as usize - 1];
                    if entry.head == head && entry.name.len() == name.len() && (name.len() <= 8 || entry.name[8..] == name[8..]) {
                        return slot;
                    }
                }
            }
            slot = (slot + 1) & (self.slots.len() - 1);
        }
    }

    /// The number of a name, from 1, which it gets if it has none.
    pub fn number(&mut self, name: &'a [u8]) -> usize {
        let head = head(name, 0, name.len());
        let slot = self.slot(head, name);
        if self.slots[slot] == 0 {
            self.entries.push(Entry { head, name });
            self.slots[slot] = self.entries.len() as u16;
        }
        self.slots[slot] as usize
    }

    /// The number of the name at a place, or 0.
    #[inline(always)]
    pub fn find(&self, doc: &[u8], from: usize, to: usize) -> usize {
        self.slots[self.slot(head(doc, from, to - from), &doc[from..to])] as usize
    }
}
