// Demand 3 on one document: the cut by the narrow list of the cut by the wide list is the narrow cut, with the same number selected. The
// wide cut may have fewer elements than the document, so name tests are not compared.
use crate::same::cut;

/// Tries it on a document and its cut by the wide list, if that is itself within the document size, and says whether it is.
pub fn tried(wide_cut: &[u8], narrow: &[u8], doc: &[u8]) -> bool {
    if wide_cut.len() > 16_777_216 {
        return false;
    }
    let (once, twice) = (cut(narrow, doc), cut(narrow, wide_cut));
    assert!(once.is_some() && once == twice, "demand 3 fails on {} bytes", doc.len());
    true
}
