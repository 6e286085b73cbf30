//! Documents in one run of bytes, and taken apart again: the version byte 1, then for each its length, four bytes with the highest first,
//! and its bytes.

/// The batch of some documents. Panics on a document of 4 GiB, which is far over what a batch may have.
pub fn bundle<'a>(documents: impl IntoIterator<Item = &'a [u8]>) -> Vec<u8> {
    let mut batch = vec![1];
    for document in documents {
        let length = u32::try_from(document.len()).expect("a document has less than 4 GiB");
        batch.extend(length.to_be_bytes());
        batch.extend(document);
    }
    batch
}

/// The documents of a batch, up to the first length that is cut short or runs past the end.
pub fn entries(batch: &[u8]) -> Vec<&[u8]> {
    let mut entries = Vec::new();
    let mut rest = batch.get(1..).unwrap_or(&[]);
    while let [a, b, c, d, behind @ ..] = rest {
        let length = u32::from_be_bytes([*a, *b, *c, *d]) as usize;
        if behind.len() < length {
            break;
        }
        let (entry, next) = behind.split_at(length);
        entries.push(entry);
        rest = next;
    }
    entries
}

#[cfg(test)]
mod tests {
    use super::*;

    #[test]
    fn documents_come_back() {
        let long = vec![b'x'; 258];
        let documents = [&b"<g/>"[..], b"", &long];
        let batch = bundle(documents);
        assert_eq!(batch.len(), 1 + 4 + 4 + 4 + 4 + 258);
        assert_eq!(&batch[..14], b"\x01\0\0\0\x04<g/>\0\0\0\0\0");
        assert_eq!(&batch[14..18], b"\0\x01\x02x");
        assert_eq!(entries(&batch), documents);
        assert_eq!(entries(&batch[..20]), documents[..2]);
        assert_eq!(entries(b"\x01"), [&b""[..]; 0]);
    }
}
