//! The records of a sound book in the new form, by their bytes.

use model::book::{self, RECORD_LENGTH};

/// The places of the order number and the security.
const NUMBER: usize = 4;
const SECURITY: usize = 21;

/// Those that aren't free.
pub fn records(book: &[u8]) -> impl Iterator<Item = &[u8]> + Clone {
    let records = book.chunks_exact(RECORD_LENGTH);
    records.filter(|record| record[0] != 0)
}

/// Those of a security.
pub fn records_of(book: &[u8], security: u32) -> impl Iterator<Item = &[u8]> + Clone {
    records(book).filter(move |record| u32::from(record[SECURITY]) == security)
}

/// The order number of a record.
pub fn number_in(record: &[u8]) -> u32 {
    book::number_at(record, NUMBER)
}
