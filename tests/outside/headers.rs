//! The words and ranges that the second reader looks at: table and partition header, their fields by name, and stretches of bytes.
//!
//! Headers are looked at in place, never copied. Words are widened to 64 bits before any reckoning, and load addresses to 128, so that
//! no sum wraps; only the checksum sum is modulo 2^32.

pub const HEADER_BYTES: u64 = 128;
pub const IMAGE_HEADER_BYTES: u64 = 64;

/// The table or a partition header: 128 bytes of the image, looked at in place.
#[derive(Clone, Copy)]
pub struct Header<'a> {
    pub start: u64,
    bytes: &'a [u8; HEADER_BYTES as usize],
}

impl<'a> Header<'a> {
    pub fn at(image: &'a [u8], start: u64) -> Option<Self> {
        let bytes = image.get(usize::try_from(start).ok()?..)?.first_chunk()?;
        Some(Header { start, bytes })
    }

    pub fn word(&self, offset: usize) -> u32 {
        word_at(&self.bytes[offset..offset + 4])
    }

    pub fn wide(&self, offset: usize) -> u64 {
        self.word(offset).into()
    }

    /// The sum of the first 31 words.
    pub fn sum(&self) -> u32 {
        sum_of_words(&self.bytes[..0x7C])
    }

    /// The hash block, which table and partition header state at the same offsets: its length in bytes, its offset in words.
    pub fn block(&self) -> Option<Range<u64>> {
        (self.word(0x60) != 0).then(|| Range::from(4 * self.wide(0x64), self.wide(0x60)))
    }
}

/// The table's words.
impl Header<'_> {
    pub fn images(&self) -> u64 {
        self.wide(0x04)
    }

    pub fn partitions(&self) -> u64 {
        self.wide(0x0C)
    }

    pub fn first_partition(&self) -> u64 {
        self.wide(0x10)
    }

    pub fn kind(&self) -> &[u8] {
        &self.bytes[0x28..0x2C]
    }

    pub fn is_full(&self) -> bool {
        self.kind() == b"FPDI"
    }

    pub fn optional_words(&self) -> u64 {
        self.wide(0x58)
    }

    pub fn with_optional_data(&self) -> Range<u64> {
        Range::from(self.start, HEADER_BYTES + 4 * self.optional_words())
    }

    pub fn image_headers(&self) -> Range<u64> {
        Range::from(4 * self.wide(0x08), IMAGE_HEADER_BYTES * self.images())
    }
}

/// A partition header's words.
impl Header<'_> {
    pub fn encrypted(&self) -> u64 {
        self.wide(0x00)
    }

    pub fn unencrypted(&self) -> u64 {
        self.wide(0x04)
    }

    pub fn total(&self) -> u64 {
        self.wide(0x08)
    }

    pub fn next(&self) -> u64 {
        self.wide(0x0C)
    }

    pub fn execution_address(&self) -> u64 {
        self.wide(0x14) << 32 | self.wide(0x10)
    }

    pub fn load_address(&self) -> u64 {
        self.wide(0x1C) << 32 | self.wide(0x18)
    }

    pub fn attributes(&self) -> u32 {
        self.word(0x24)
    }

    pub fn key(&self) -> u32 {
        self.word(0x44)
    }

    /// T words from D.
    pub fn span(&self) -> Range<u64> {
        Range::from(4 * self.wide(0x20), 4 * self.total())
    }

    /// The first E words of the span.
    pub fn body(&self) -> Range<u64> {
        Range::from(4 * self.wide(0x20), 4 * self.encrypted())
    }

    /// 4U addresses from the load address on, for the types that have one.
    pub fn load_range(&self) -> Option<Range<u128>> {
        let start = u128::from(self.load_address());
        let has_address = matches!(bits(self.attributes(), 26, 24), 1 | 4 | 5);
        has_address.then(|| Range { start, end: start + 4 * u128::from(self.unencrypted()) })
    }
}

/// Positions or addresses from `start` up to, but not including, `end`. None of the outline's ranges is empty.
#[derive(Clone, Copy, PartialEq)]
pub struct Range<T> {
    pub start: T,
    pub end: T,
}

impl<T: PartialOrd> Range<T> {
    pub fn meets(&self, other: &Self) -> bool {
        self.start < other.end && other.start < self.end
    }
}

impl Range<u64> {
    pub fn from(start: u64, length: u64) -> Self {
        Range { start, end: start + length }
    }

    pub fn ends_within(&self, image: &[u8]) -> bool {
        self.end <= image.len() as u64
    }
}

/// At most `MOST` ranges, kept without an allocation.
pub struct Ranges<const MOST: usize> {
    list: [Range<u64>; MOST],
    count: usize,
}

impl<const MOST: usize> Ranges<MOST> {
    pub fn none() -> Self {
        Ranges { list: [Range { start: 0, end: 0 }; MOST], count: 0 }
    }

    pub fn add(&mut self, range: Range<u64>) {
        self.list[self.count] = range;
        self.count += 1;
    }

    pub fn all(&self) -> &[Range<u64>] {
        &self.list[..self.count]
    }
}

/// Each pair of ranges once, not only neighbours.
pub fn pairs(ranges: &[Range<u64>]) -> impl Iterator<Item = (&Range<u64>, &Range<u64>)> {
    ranges.iter().enumerate().flat_map(|(index, range)| ranges[..index].iter().map(move |other| (other, range)))
}

pub fn none_meet(some: &[Range<u64>], others: &[Range<u64>]) -> bool {
    some.iter().all(|range| others.iter().all(|other| !range.meets(other)))
}

/// The bytes of a range, if the image has them all.
pub fn part(image: &[u8], range: Range<u64>) -> Option<&[u8]> {
    image.get(usize::try_from(range.start).ok()?..usize::try_from(range.end).ok()?)
}

/// Bits high:low of a word, for fields narrower than the word.
pub fn bits(word: u32, high: u32, low: u32) -> u32 {
    word >> low & ((1 << (high - low + 1)) - 1)
}

/// The little-endian word at the start of these bytes.
pub fn word_at(bytes: &[u8]) -> u32 {
    bytes.first_chunk().map_or(0, |word| u32::from_le_bytes(*word))
}

/// The checksum sum, modulo 2^32.
pub fn sum_of_words(bytes: &[u8]) -> u32 {
    bytes.chunks_exact(4).map(word_at).fold(0, u32::wrapping_add)
}
