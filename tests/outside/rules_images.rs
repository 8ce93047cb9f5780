//! Rule 20 of the second reader, which is about the image headers: each image owns a run of the chain, in table order.

use super::headers::{part, sum_of_words, word_at, Header, IMAGE_HEADER_BYTES};
use super::MOST_PARTITIONS;

/// An image header: 16 words of the image, looked at in place. Words 2 to 14 aren't examined.
struct ImageHeader<'a> {
    bytes: &'a [u8],
}

impl ImageHeader<'_> {
    fn word(&self, number: usize) -> u32 {
        word_at(&self.bytes[4 * number..])
    }

    /// Where its first partition header lies, in bytes.
    fn first(&self) -> u64 {
        4 * u64::from(self.word(0))
    }

    fn count(&self) -> Option<usize> {
        usize::try_from(self.word(1)).ok()
    }

    /// Word 15 is the sum of the first 15 words.
    fn has_checksum(&self) -> bool {
        self.word(15) == sum_of_words(&self.bytes[..4 * 15])
    }
}

/// The image that owns each partition, counted from 1. A run past N is refused before anything of it is looked at.
pub(super) fn rule_20(image: &[u8], table: &Header, partitions: &[Header]) -> Option<[u64; MOST_PARTITIONS]> {
    let mut owners = [0; MOST_PARTITIONS];
    let mut start = 0;
    let headers = part(image, table.image_headers())?.chunks_exact(IMAGE_HEADER_BYTES as usize);
    for (number, header) in (1..).zip(headers.map(|bytes| ImageHeader { bytes })) {
        let end = start + header.count().filter(|&count| count <= partitions.len())?;
        let first = partitions.get(start..end)?.first()?;
        if !header.has_checksum() || header.first() != first.start {
            return None;
        }
        owners[start..end].fill(number);
        start = end;
    }
    (start == partitions.len()).then_some(owners)
}
