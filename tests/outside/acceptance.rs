//! What the second reader answers of an image that no rule refuses: the rows, the bill and the owners.

use super::headers::Header;
use super::{HEAD, MOST_PARTITIONS, ROW};

/// What the rules leave to be written: the table, and for each partition its header, where its hash entry lies and which image owns it.
pub(super) struct Accepted<'a> {
    pub(super) table: Header<'a>,
    pub(super) headers: [Header<'a>; MOST_PARTITIONS],
    pub(super) entries: [u64; MOST_PARTITIONS],
    pub(super) owners: [u64; MOST_PARTITIONS],
    pub(super) count: usize,
}

impl<'a> Accepted<'a> {
    pub(super) fn partitions(&self) -> &[Header<'a>] {
        &self.headers[..self.count]
    }

    /// The image that owns each partition, counted from 1.
    pub(super) fn owners(&self) -> &[u64] {
        &self.owners[..self.count]
    }

    pub(super) fn billed(&self) -> u64 {
        self.partitions().iter().map(|header| 4 * header.total()).sum()
    }

    pub(super) fn write(&self, rows: &mut [u8]) {
        let kind = if self.table.is_full() { 1 } else { 2 };
        let (head, rest) = rows.split_at_mut(8 * HEAD);
        write_numbers(head, &[kind, self.table.images(), self.count as u64, self.billed()]);
        for ((row, header), &entry) in rest.chunks_exact_mut(8 * ROW).zip(self.partitions()).zip(&self.entries) {
            let span = header.span();
            let (load, execution) = (header.load_address(), header.execution_address());
            let (loaded, key, attributes) = (4 * header.unencrypted(), header.key().into(), header.attributes().into());
            write_numbers(row, &[span.start, span.end - span.start, loaded, load, execution, key, entry, attributes]);
        }
    }
}

fn write_numbers(bytes: &mut [u8], numbers: &[u64]) {
    for (to, number) in bytes.chunks_exact_mut(8).zip(numbers) {
        to.copy_from_slice(&number.to_le_bytes());
    }
}
